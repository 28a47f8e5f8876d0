#!/usr/bin/env python3
"""Brings the names of this repository's own definitions and lemmas to one spelling: words in snake case, facts, types and
modules in camel case. Run once at the top, over specs/, proofs/, the clauses of src/ and the edits that the check must refuse.
With `--list` it prints the names and what they become, and changes nothing."""
import glob
import re
import sys

# Names that would fall together with others, and names whose parts are names themselves.
CHOSEN = {
    'Class-answers': 'ClassSearchAnswers',
    'Coverage-answers': 'CoverageSearchAnswers',
    'Would-apply': 'WouldApplyDecides',
    'after-append': 'after-append',
    'class-step': 'class_step_spares',
    'fill-leaves': 'fill_leaves_rest',
    'from-word': 'words_in-from_word',
    'map-set': 'map-set',
    'opens-wide': 'opens_wide_leaves',
    'right-below': 'right_below_at',
    'some-applies': 'some_applies_at',
    'sumFits': 'mask_sum_fits',
    'sumsFit': 'all_sums_fit',
    'tally-append': 'tally-append',
}

# The same, in one file alone: elsewhere the name means something else.
CHOSEN_IN = {
    'crates/opentype/proofs/Relating.antt': {'would-apply': 'would_apply_decides'},
    'crates/bank/proofs/join/JoinMatching/hit/Answers.antt': {'hit-2': 'hit-2'},
    'crates/adding/proofs/class/add_entries/Answers.antt': {'digest-is': 'digest-is'},
}

DEFINED = re.compile(r"\s*(?:(?:abbrev|pub|unfoldable|data|record|ruleset)\s+)*([^\s:(){}.]+)\s*(?=[:({=])")
CAMEL = re.compile(r"^[a-z][a-z0-9]*(?:[A-Z][a-zA-Z0-9]*)+'*$")
TOKEN = re.compile(r"[^\s(){}\[\];,«».⌜⌝|\"`:]+")


def snake(name):
    return re.sub(r'(?<=[a-z0-9])([A-Z])', lambda m: '_' + m.group(1).lower(), name)


def fact(name):
    return ''.join(part[:1].upper() + part[1:] for part in name.split('-'))


def antt_files():
    return sorted(glob.glob('crates/*/specs/**/*.antt', recursive=True) + glob.glob('crates/*/proofs/**/*.antt', recursive=True))


def answers_a_goal(line, name):
    return re.search(r':\s*goal\.', line) is not None or re.match(r'^(returns|loop|invariant|decreases|overflow|bounds|slice_bounds)(-|$)', name) is not None


def own_dashed():
    # what is imported from the library is not this repository's
    dashed, goals = set(), {'cond-true', 'cond-false'}
    for path in antt_files():
        for line in open(path, encoding='utf-8'):
            found = DEFINED.match(line)
            if not found or '-' not in found.group(1).strip('-'):
                continue
            name = found.group(1)
            if answers_a_goal(line, name):
                goals.add(name)
            elif re.match(r"^[A-Za-z][A-Za-z0-9_'-]*$", name):
                dashed.add(name)
    return dashed - goals


def new_names():
    names = dict(CHOSEN)
    for path in antt_files() + sorted(glob.glob('crates/*/src/**/*.rt', recursive=True)):
        for token in TOKEN.findall(open(path, encoding='utf-8').read()):
            if CAMEL.match(token) and token not in names:
                names[token] = snake(token)
    for name in own_dashed():
        if name not in names and name != 'would-apply':
            names[name] = fact(name) if name[0].isupper() else snake(name).replace('-', '_')
    return names


# Strings and comments keep their words.
KEPT = {
    '.antt': re.compile(r'"[^"\n]*"|(?:(?<=\s)|^)--.*', re.M),
    '.rt': re.compile(r'"(?:[^"\\\n]|\\.)*"|//.*'),
    '.edit': re.compile(r'"[^"\n]*"|^(?!old:|new:).*', re.M),
}


def respelled(path, text, names):
    names = {**names, **CHOSEN_IN.get(path, {})}
    kept = KEPT[path[path.rindex('.'):]]
    out, at = [], 0
    for found in kept.finditer(text):
        out.append(TOKEN.sub(lambda t: names.get(t.group(0), t.group(0)), text[at:found.start()]))
        out.append(found.group(0))
        at = found.end()
    out.append(TOKEN.sub(lambda t: names.get(t.group(0), t.group(0)), text[at:]))
    return ''.join(out)


def main():
    names = new_names()
    if '--list' in sys.argv:
        for old in sorted(names):
            print(old, names[old])
        return
    paths = antt_files() + sorted(glob.glob('crates/*/src/**/*.rt', recursive=True) + glob.glob('crates/*/must-fail/*.edit'))
    for path in paths:
        text = open(path, encoding='utf-8').read()
        new = respelled(path, text, names)
        if new != text:
            open(path, 'w', encoding='utf-8').write(new)


if __name__ == '__main__':
    main()
