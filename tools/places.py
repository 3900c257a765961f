#!/usr/bin/env python3
"""Lists the places in crates/*/src where a form may stand that today's Rattle has a better one for (docs/DESIGN-PASS.md).

usage: tools/places.py [POINT]    lines of POINT 1 to 8, or the counts of all
"""
import collections
import glob
import re
import sys

# 1: own enums; a refusal, a kind or a flag as a number. 3: loops with a condition. 4: functions written by hand for what a derive or a method of the
# library does. 6: lent buffers with a place beside. 7: a flag that says which step to run.
LINES = {
    1: r'^ *(pub )?enum |^ *(pub )?(refusal|found|finite|exact|cut|alert|guidance|seen|version): u16,|fn .*\b(version: u32|refusal: u16|alert: u16|shown: bool'
       r'|earlier: u16|later: u16)|^ *(alert: u16|shown: bool),|fn (refusal|refusal_by|refusal_at|alert|windshear_write_header|windshear_write_record)\(.*-> u16',
    3: r'^ *(while|loop)\b',
    4: r'fn (smaller|larger|equal|agree|same|both|between|first|at_most|size_of|minus|cut|wide|two_at|four_at|signed|unsigned|signed_at|copy_all|word'
       r'|record_bytes|header_bytes|answer_bytes|changed|shown|not_found|off|fresh|elapsed|fit|marked|ends_in_cr|quotes)\(',
    6: r'fn .*(out|buf): &mut \[u8\], at: usize|held: &(mut )?\[i32; 200\]|^ *(length|end): usize,|= \[0(u8|i32)?; ',
    7: r'fn .*\b(up|speed|negative|readable): bool',
}
# 5: facts of a value in the clauses of functions, and parameters that travel together
FACTS = ['InRange', 'GuideValid', 'RingValid', 'entry_fits', 'record_size version', 'most_records', 'Wrote out.old', 'tested_of file.now',
         'export_tested file.now', 'n ≤ 20', 'p < 200', 'length held.now ≡ 200', 'refusal_of']
TOGETHER = [r'out: &mut \[u8\], at: usize', r'core: Core, held: ', r'held: &\[i32; 200\], p: usize', r'version: u32, (s|part): ',
            r'file: &\[u8\], version: u32', r's: Sample, n: u16']


def sources():
    return sorted(glob.glob('crates/*/src/**/*.rt', recursive=True))


def by_line(pattern):
    return [f'{name}:{number}: {line.strip()}' for name in sources() for number, line in enumerate(open(name), 1) if re.search(pattern, line)]


def signatures():
    """each function's name with its parameters and clauses, one text"""
    for name in sources():
        function, text = None, ''
        for line in open(name):
            found = re.match(r'\s*(?:pub(?:\(crate\))? )?(?:extern "C" )?fn (\w+)', line)
            if found:
                function, text = f'{name}: {found.group(1)}', ''
            if function:
                text += line
                if line.strip() == '{' or line.rstrip().endswith(' {'):
                    yield function, text
                    function = None


def fifth():
    shared = collections.defaultdict(list)
    for function, text in signatures():
        for fact in FACTS:
            if any(fact in line for line in text.split('\n') if re.match(r'\s*(requires|ensures)', line)):
                shared[fact].append(function)
        for pattern in TOGETHER:
            if re.search(pattern, re.sub(r',\s+', ', ', text)):
                shared[pattern].append(function)
    return [f'{fact}: {function}' for fact, functions in shared.items() if len(functions) > 2 for function in functions]


def bodies():
    """functions of two lines or more whose bodies are one but for names and numbers"""
    alike = collections.defaultdict(list)
    for name in sources():
        if '/host_c/' in name:
            continue
        text = open(name).read()
        for found in re.finditer(r'\n( *)(?:pub(?:\(crate\))? )?fn (\w+)[^{]*?(?:\{[^\n]*\}[^{]*?)*\n\1\{\n(.*?)\n\1\}', text, re.S):
            body = re.sub(r'//[^\n]*', '', found.group(3))
            words = [w if w in ('if', 'else', 'return', 'while', 'for', 'match', 'let', 'mut') else 'x' if re.match(r'\w', w) else w
                     for w in re.findall(r'\w+|[^\s\w]', body)]
            if len(words) > 12:
                alike[' '.join(words)].append(f'{name}: {found.group(2)}')
    return [' ~ '.join(functions) for functions in alike.values() if len(functions) > 1]


def places(point):
    if point == 2:
        return bodies()
    if point == 5:
        return fifth()
    if point == 8:
        return sorted(glob.glob('crates/*/proofs/**/Answers.antt', recursive=True) + glob.glob('crates/*/proofs/**/Invariants.antt', recursive=True))
    return by_line(LINES[point])


if len(sys.argv) > 1:
    print('\n'.join(places(int(sys.argv[1]))))
else:
    for point in range(1, 9):
        print(f'{point}: {len(places(point))}')
