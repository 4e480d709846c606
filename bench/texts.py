#!/usr/bin/env python3
"""Writes a text of about a size: `texts.py KIND BYTES`, the kinds being the names below."""
import sys


def rules_text(size):
    part = 'f(' + ','.join(['g(a,b)'] * 20) + ')'
    rule = '  h(' + ','.join([part] * 6) + ') -> ' + part + '\n'
    return '(VAR x y)\n(RULES\n' + rule * min(1000, size // len(rule)) + ')\n'


def terms_text(size):
    """Terms of 406 nodes over variables and symbols with names of several bytes, each rule with a condition."""
    part = 'plus(times(xs,succ(n)),cons(zero,nil))'
    row = 'row(' + ','.join([part] * 10) + ')'
    rule = '  rows(' + ','.join([row] * 5) + ') -> ' + row + ' | plus(n,zero) == n\n'
    return '(CONDITIONTYPE ORIENTED)\n(VAR n xs)\n(RULES\n' + rule * min(1000, size // len(rule)) + ')\n'


def brackets_text(size):
    """Terms that nest as deep as the text is long: refused at the first that is too deep."""
    count = size // 3
    return '(RULES ' + 'f(' * count + 'a' + ')' * count + ' -> a)\n'


def comments_text(size):
    count = size // 4
    return '(COMMENT ' + '(' * count + 'x ' * count + ')' * count + ')(RULES a -> b a -> c)\n'


def peak_text(steps):
    return 'concon 1\npeak\nstart a\n' + steps + 'steps 0\nnormal\nend\n'


def positions_text(size):
    place = '.'.join(['1'] * (size // 20000))
    return peak_text('steps 10000\n' + ('rule 1 %s 0\n' % place) * 10000)


def nested_text(size):
    count = size // 160000
    return peak_text('steps 10000\n' + ('rule 1 1 %d\n' % count + 'steps 1\nhyp 1 e\n' * count) * 10000)


def automata_text(size):
    count = max(1, (size // 18000 - 50) // 4)
    automaton = 'states 1\naccepting\ntransitions %d\n' % count + 'a 0\n' * count
    return 'concon 1\northo\n' + ('pair 1 e 2 auto 1\n' + automaton) * 18000 + 'end\n'


def numbers_text(size):
    entry = 'aux 1 1' + ' 1000000' * min(200, size // 25000 // 8) + '\n'
    return 'concon 1\nquasi\nlinear\n' + entry * min(25000, size // len(entry)) + 'end\n'


def refused_text(size):
    """The same as positions, refused in its last line."""
    return positions_text(size)[:-4] + 'ende\n'


kinds = {
    'rules': rules_text,
    'terms': terms_text,
    'brackets': brackets_text,
    'comments': comments_text,
    'positions': positions_text,
    'nested': nested_text,
    'automata': automata_text,
    'numbers': numbers_text,
    'refused': refused_text,
}
sys.stdout.write(kinds[sys.argv[1]](int(sys.argv[2])))
