#!/usr/bin/env python3
"""Writes the tables of a language of crate `grammar` from its productions.

usage: grammar_tables.py GRAMMAR CRATE FOLDER NAME

GRAMMAR is a text: a line `terminals: A B C`, a line `end: TextEnd`, and a line for each production,
`Nonterminal.Production = Symbol Symbol ..`; the first production is the start. A production that may stand before some
terminals alone has `only A B` behind its symbols, and one that may not stand before some `except A B`. `#` begins a comment.
It writes below FOLDER src/table.rt, symbols.rt and parse_table.rt, specs/Table.antt, ParseTable.antt, LookaheadTables.antt and
NAMESound.antt, and proofs/TableLemmas.antt and parse_table/, over a file specs/NAME.antt that defines `certificate` of these tables and
`grammar_with`, their grammar with the values of a token and of each production, and says where the productions need more than one token
of lookahead. The files are laid out as `rt fmt` and `rt tidy` do it, and tools/check_tables compares those that stand with these.
"""
import os
import sys

ALL = 'all'


class Grammar:
    def __init__(self, text):
        self.productions, self.rows, self.terminals, self.end = [], {}, [], None
        for line in text.splitlines():
            line = line.split('#')[0].strip()
            if not line:
                continue
            if line.startswith('terminals:'):
                self.terminals += line.split(':', 1)[1].split()
            elif line.startswith('end:'):
                self.end = line.split(':', 1)[1].strip()
            else:
                head, body = line.split('=', 1)
                nonterminal, production = head.strip().split('.')
                only, words = None, body.split()
                for key in ('only', 'except'):
                    if key in words:
                        at = words.index(key)
                        only, words = (key, words[at + 1:]), words[:at]
                assert production not in self.rows, production
                self.productions.append(production)
                self.rows[production] = (nonterminal, words, only)
        assert max(len(self.productions), len(self.terminals)) <= 256, 'an enum has at most 256 variants'
        self.nonterminals = list(dict.fromkeys(row[0] for row in self.rows.values()))
        for production, (_, words, _) in self.rows.items():
            for word in words:
                assert word in self.terminals or word in self.nonterminals, (production, word)
        self.find_sets()
        self.find_table()
        self.find_costs()
        self.find_closings()
        self.find_inner()

    def of(self, nonterminal):
        return [p for p in self.productions if self.rows[p][0] == nonterminal]

    def allows(self, production, terminal):
        only = self.rows[production][2]
        return only is None or (terminal in only[1]) == (only[0] == 'only')

    def is_nonterminal(self, word):
        return word in self.nonterminals

    def both(self, one, other):
        """Where both may be empty, as the certificate counts it: None is never, ALL always."""
        if one is None or other is None:
            return None
        return other if one is ALL else one

    def nullable_of(self, words):
        vacant = ALL
        for word in reversed(words):
            vacant = self.both(self.nullable[word] if self.is_nonterminal(word) else None, vacant)
        return vacant

    def through(self, vacant, terminals):
        if vacant is None:
            return set()
        return set(terminals) if vacant is ALL else set(terminals) & vacant

    def first_of(self, words):
        if not words:
            return set()
        if not self.is_nonterminal(words[0]):
            return {words[0]}
        return self.first[words[0]] | self.through(self.nullable[words[0]], self.first_of(words[1:]))

    def find_sets(self):
        self.nullable = {n: None for n in self.nonterminals}
        self.first = {n: set() for n in self.nonterminals}
        self.follow = {n: set() for n in self.nonterminals}
        self.settle(self.grow_nullable)
        self.settle(self.grow_first)
        self.settle(self.grow_follow)

    def settle(self, grow):
        while grow():
            pass

    def grow_nullable(self):
        grown = False
        for production, (nonterminal, words, only) in self.rows.items():
            vacant = self.nullable_of(words)
            if vacant is None:
                continue
            if only is not None and only[0] == 'only':
                vacant = {k for k in self.terminals if self.allows(production, k) and (vacant is ALL or k in vacant)}
            old = self.nullable[nonterminal]
            new = ALL if ALL in (old, vacant) else (old or set()) | vacant
            grown |= new != old
            self.nullable[nonterminal] = new
        return grown

    def grow_first(self):
        before = sum(map(len, self.first.values()))
        for nonterminal, words, _ in self.rows.values():
            self.first[nonterminal] |= self.first_of(words)
        return before != sum(map(len, self.first.values()))

    def grow_follow(self):
        before = sum(map(len, self.follow.values()))
        for nonterminal, words, _ in self.rows.values():
            for at, word in enumerate(words):
                if self.is_nonterminal(word):
                    behind = words[at + 1:]
                    self.follow[word] |= self.first_of(behind) | self.through(self.nullable_of(behind), self.follow[nonterminal])
        return before != sum(map(len, self.follow.values()))

    def find_table(self):
        self.table = {n: {} for n in self.nonterminals}
        self.rest = {}
        for production in self.productions:
            nonterminal, words, _ = self.rows[production]
            found = self.first_of(words)
            found |= {k for k in self.through(self.nullable_of(words), self.follow[nonterminal]) if self.allows(production, k)}
            for terminal in found:
                other = self.table[nonterminal].get(terminal)
                assert other is None, f'{nonterminal} at {terminal}: {other} or {production}'
                self.table[nonterminal][terminal] = production
                if not self.allows(production, terminal):
                    raise SystemExit(f'{production} begins with {terminal}, before which it may not stand')
        for nonterminal in self.nonterminals:
            empty = [p for p in self.of(nonterminal) if not self.rows[p][1] and self.rows[p][2] is None]
            if empty:
                self.rest[nonterminal] = empty[0]

    def find_costs(self):
        self.cost = {}

        def cost_of(nonterminal, around):
            assert nonterminal not in around, f'{nonterminal} may begin with itself'
            if nonterminal not in self.cost:
                self.cost[nonterminal] = 2 + max(cost_along(self.rows[p][1], around + [nonterminal]) for p in self.of(nonterminal))
            return self.cost[nonterminal]

        def cost_along(words, around):
            total = 0
            for word in words:
                if not self.is_nonterminal(word):
                    return total + 1
                total += cost_of(word, around)
                if self.nullable[word] is None:
                    return total
            return total

        for nonterminal in self.nonterminals:
            cost_of(nonterminal, [])

    def find_closings(self):
        self.shortest, self.closing, self.height = {}, {}, {}
        while len(self.shortest) < len(self.nonterminals):
            best = None
            for nonterminal in self.nonterminals:
                if nonterminal in self.shortest:
                    continue
                for production in self.of(nonterminal):
                    words = self.rows[production][1]
                    if all(not self.is_nonterminal(w) or w in self.shortest for w in words):
                        text = [k for w in words for k in (self.closing[w] if self.is_nonterminal(w) else [w])]
                        limited = self.rows[production][2] is not None
                        key = (limited, len(text))
                        if best is None or key < best[0]:
                            best = (key, nonterminal, production, text)
            assert best, 'some nonterminal derives no text'
            _, nonterminal, production, text = best
            self.shortest[nonterminal], self.closing[nonterminal] = production, text
            inner = [self.height[w] for w in self.rows[production][1] if self.is_nonterminal(w)]
            self.height[nonterminal] = 1 + max(inner, default=0)
        self.before = {n: set() for n in self.nonterminals}
        self.settle(self.grow_before)

    def grow_before(self):
        size = sum(map(len, self.before.values()))
        for nonterminal, words, _ in self.rows.values():
            for at, word in enumerate(words):
                if self.is_nonterminal(word):
                    text = [k for w in words[at + 1:] for k in (self.closing[w] if self.is_nonterminal(w) else [w])]
                    self.before[word] |= {text[0]} if text else self.before[nonterminal]
        return size != sum(map(len, self.before.values()))

    def find_inner(self):
        self.inner = {n: True for n in self.nonterminals}

        def outer():
            before = sum(self.inner.values())
            for nonterminal, words, _ in self.rows.values():
                if any(w == self.end or (self.is_nonterminal(w) and not self.inner[w]) for w in words):
                    self.inner[nonterminal] = False
            return before != sum(self.inner.values())

        self.settle(outer)


def symbol(grammar, word):
    return f'Nonterminal nonterminals.{word}' if grammar.is_nonterminal(word) else f'Terminal terminals.{word}'


def items(grammar, terminals):
    return listed([k for k in grammar.terminals if k in terminals])


def listed(names, kind='terminals'):
    return ' ∷ '.join([f'{kind}.{name}' for name in names] + ['[]'])


def entries(grammar, nonterminal):
    """The terminals at which a nonterminal goes on, with the production, but for those of the production that goes on at any other."""
    row = grammar.table[nonterminal]
    return [(k, row[k]) for k in grammar.terminals if k in row and row[k] != grammar.rest.get(nonterminal)]


def clauses(name, rows, rest=None):
    """Clauses of a function; the most frequent value is that of the last clause."""
    values = [value for _, value in rows]
    common = rest if rest is not None else max(dict.fromkeys(values), key=values.count)
    out = [f'{name} {key} = {value}' for key, value in rows if value != common]
    return out + ([f'{name} _ = {common}'] if len(out) < len(rows) or rest is not None else [])


TYPES = ('Terminal', 'Nonterminal', 'Production')


def uses(crate, *names, alias=False):
    """Imports of the types of the table, with their variants."""
    lines = []
    for name in names:
        lines += [f'use Rattle.{crate}.specs.declared.table.{name}.{{{name}{f" as A{name}" if alias else ""}}}',
                  f'use Rattle.{crate}.specs.declared.table.{name}.TheVariants as {name.lower()}s']
    return lines


def use_type(crate, name):
    return f'use Rattle.{crate}.specs.contracts.table.{name}.{{the_type as {name.lower()}_type}}'


def enum(comment, name, words):
    return ['', f'/// {comment}', '#[derive(Clone, Copy, PartialEq, Eq)]', f'pub enum {name} {{'] + [f'    {w},' for w in words] + ['}']


def write_types(grammar):
    return (['// The names of the grammar: what it sees of tokens, the parts of a text, and its productions.']
            + enum('What the grammar sees of a token.', 'Terminal', grammar.terminals)
            + enum('The parts of a text that the grammar names.', 'Nonterminal', grammar.nonterminals)
            + enum('The productions, each of one nonterminal.', 'Production', grammar.productions))


WIDTH = 100


def packed(items):
    """As many items on a line as there is room for."""
    lines = []
    for item in items:
        if lines and len(lines[-1]) + len(item) + 2 < WIDTH:
            lines[-1] += f' {item},'
        else:
            lines.append(f'    {item},')
    return lines


def table(name, kind, items):
    """A static array as `rt fmt` lays it out: on one line, else with numbers packed and other items each on a line."""
    head = f'static {name}: [{kind}; {len(items)}] = ['
    line = f'{head}{", ".join(items)}];'
    if len(line) <= WIDTH:
        return [line, '']
    return [head] + (packed(items) if kind == 'usize' else [f'    {item},' for item in items]) + ['];', '']


def starts(rows):
    """Where each row begins, and where the last ends. The rows stand in one list, since lists in a list are dear to check."""
    ends = [0]
    for row in rows:
        ends.append(ends[-1] + len(row))
    return [str(end) for end in ends]


def getter(name, kind, static, seen):
    return ['', f"fn {name}() -> &'static [{kind}]", f'    ensures {{ result.now ≡ {seen} }}', '{', f'    &{static}', '}']


def write_symbols(grammar, crate):
    def symbol_of(word):
        kind = 'Nonterminal' if grammar.is_nonterminal(word) else 'Terminal'
        return f'Symbol::{kind}({kind}::{word})'

    rows = [[symbol_of(word) for word in grammar.rows[p][1]] for p in grammar.productions]
    static = [f'static SYMBOLS: [Symbol<Terminal, Nonterminal>; {sum(map(len, rows))}] = [']
    for production, row in zip(grammar.productions, rows):
        static += [f'    // {production}'] * bool(row) + [f'    {item},' for item in row]
    return [
        '// The symbols of each production.',
        '',
        'ghost use Rattle.std.specs.Prelude.{◌≡◌, slice_get};',
        f'ghost use Rattle.{crate}.specs.Table.{{symbols, all_symbols, symbol_starts}};',
        '',
        'use crate::table::{Nonterminal, Production, Terminal};',
        'use grammar::{Symbol, row};',
        '',
        '/// The symbol at a place of a production.',
        'pub fn symbol_at(production: Production, place: usize) -> Option<Symbol<Terminal, Nonterminal>>',
        '    ensures { result ≡ slice_get (symbols production) place }',
        '{',
        '    symbols_of(production).get(place).copied()',
        '}',
        '',
        '#[tactic(auto, using(crate::proofs::TableLemmas::symbols_stand, crate::proofs::TableLemmas::symbols_found))]',
        "fn symbols_of(production: Production) -> &'static [Symbol<Terminal, Nonterminal>]",
        '    ensures { result.now ≡ symbols production }',
        '{',
        '    row(all(), starts(), production as usize)',
        '}',
    ] + getter('all', 'Symbol<Terminal, Nonterminal>', 'SYMBOLS', 'all_symbols') + getter('starts', 'usize', 'STARTS', 'symbol_starts') + [
        '',
        '// Where the symbols of each production begin, and where the last end.',
    ] + table('STARTS', 'usize', starts(rows)) + static + ['];']


def write_parse_table(grammar, crate):
    rows = [[f'(Terminal::{k}, Production::{p})' for k, p in entries(grammar, n)] for n in grammar.nonterminals]
    rests = [f'Some(Production::{grammar.rest[n]})' if n in grammar.rest else 'None' for n in grammar.nonterminals]
    return [
        '// The parse table: the production by which each nonterminal goes on at a terminal.',
        '',
        'ghost use Rattle.std.specs.Prelude.{◌≡◌};',
        'ghost use denote.Enum.Bare.{sameb};',
        'ghost use Rattle.grammar.specs.Rows.{found};',
        f'ghost {use_type(crate, "Terminal")};',
        f'ghost use Rattle.{crate}.specs.ParseTable.{{predict_at, entries, rest, all_entries, entry_starts, all_rests}};',
        '',
        'use crate::table::{Nonterminal, Production, Terminal};',
        'use grammar::row;',
        '',
        '/// The production by which a nonterminal goes on at a terminal.',
        'pub fn predict(nonterminal: Nonterminal, terminal: Terminal) -> Option<Production>',
        '    ensures { result ≡ predict_at nonterminal terminal }',
        '{',
        '    chosen(entries_of(nonterminal), terminal, rest_of(nonterminal))',
        '}',
        '',
        'fn chosen(',
        '    choices: &[(Terminal, Production)],',
        '    seen: Terminal,',
        '    other: Option<Production>,',
        ') -> Option<Production>',
        '    ensures { result ≡ found (sameb terminal_type) seen choices.now other }',
        '{',
        '    for (terminal, production) in choices {',
        '        if *terminal == seen {',
        '            return Some(*production);',
        '        }',
        '    }',
        '    other',
        '}',
        '',
        '#[tactic(auto, using(crate::proofs::TableLemmas::entries_stand, crate::proofs::TableLemmas::entries_found))]',
        "fn entries_of(nonterminal: Nonterminal) -> &'static [(Terminal, Production)]",
        '    ensures { result.now ≡ entries nonterminal }',
        '{',
        '    row(all(), starts(), nonterminal as usize)',
        '}',
        '',
        '/// The production at any terminal that has no entry.',
        '#[tactic(auto, using(crate::proofs::TableLemmas::rest_stands, crate::proofs::TableLemmas::rest_found))]',
        'fn rest_of(nonterminal: Nonterminal) -> Option<Production>',
        '    ensures { result ≡ rest nonterminal }',
        '{',
        '    rests()[nonterminal as usize]',
        '}',
    ] + getter('all', '(Terminal, Production)', 'ENTRIES', 'all_entries') + getter('starts', 'usize', 'STARTS', 'entry_starts') \
        + getter('rests', 'Option<Production>', 'RESTS', 'all_rests') + [
        '',
        '// Where the entries of each nonterminal begin, and where the last end.',
    ] + table('STARTS', 'usize', starts(rows)) + table('RESTS', 'Option<Production>', rests) + table('ENTRIES', '(Terminal, Production)', sum(rows, []))[:-1]


def write_table(grammar, crate):
    out = [
        '-- The grammar as a table: the symbols of each production, and where it may stand.',
        'use Rattle.std.specs.Prelude.{ℕ, Bool, true, false, List, [], ◌∷◌, map}',
        'use Rattle.grammar.specs.declared.language.Symbol.{Symbol}',
        'use Rattle.grammar.specs.declared.language.Symbol.TheVariants.{Terminal, Nonterminal}',
        'use Rattle.grammar.specs.Rows.{flat, starts_of}',
    ] + uses(crate, *TYPES, alias=True)
    out += ['', 'abbrev pub symbols : AProduction → List (Symbol ATerminal ANonterminal)']
    for p in grammar.productions:
        out.append(f'symbols productions.{p} = ' + ' ∷ '.join([symbol(grammar, w) for w in grammar.rows[p][1]] + ['[]']))
    out += ['', 'abbrev pub nonterminal_of : AProduction → ANonterminal']
    out += [f'nonterminal_of productions.{p} = nonterminals.{grammar.rows[p][0]}' for p in grammar.productions]
    out += ['', '-- where a production may stand', 'abbrev pub allows : AProduction → ATerminal → Bool']
    for p in grammar.productions:
        only = grammar.rows[p][2]
        if only:
            out += [f'allows productions.{p} terminals.{k} = {"true" if only[0] == "only" else "false"}' for k in only[1]]
            out.append(f'allows productions.{p} _ = {"false" if only[0] == "only" else "true"}')
    return out + [
        'allows _ _ = true',
        '',
        'abbrev pub all_productions : List AProduction',
        f'all_productions = {listed(grammar.productions, "productions")}',
        '',
        '-- the symbols of all productions behind one another, and where each begins',
        'abbrev pub all_symbols : List (Symbol ATerminal ANonterminal)',
        'all_symbols = flat (map symbols all_productions)',
        '',
        'abbrev pub symbol_starts : List ℕ',
        'symbol_starts = starts_of 0 (map symbols all_productions)',
    ]


def write_entries(grammar, crate):
    out = [
        '-- The parse table: the production of each nonterminal at each terminal.',
        'use Rattle.std.specs.Prelude.{ℕ, Option, Some, None, List, [], ◌∷◌, map}',
        'use denote.Enum.Bare.{sameb}',
        'use Rattle.grammar.specs.Rows.{found, flat, starts_of}',
        use_type(crate, 'Terminal'),
    ] + uses(crate, *TYPES) + ['', 'abbrev pub entries : Nonterminal → List (Terminal × Production)']
    for n in grammar.nonterminals:
        out.append(f'entries nonterminals.{n} = ' + ' ∷ '.join([f'(terminals.{k}, productions.{p})' for k, p in entries(grammar, n)] + ['[]']))
    out += ['', '-- at any terminal that has no entry', 'abbrev pub rest : Nonterminal → Option Production']
    out += clauses('rest', [(f'nonterminals.{n}', f'Some productions.{p}') for n, p in grammar.rest.items()], 'None')
    return out + [
        '',
        'abbrev pub predict_at : Nonterminal → Terminal → Option Production',
        'predict_at n k = found (sameb terminal_type) k (entries n) (rest n)',
        '',
        'abbrev pub all_nonterminals : List Nonterminal',
        f'all_nonterminals = {listed(grammar.nonterminals, "nonterminals")}',
        '',
        '-- the entries of all nonterminals behind one another, and where each begins',
        'abbrev pub all_entries : List (Terminal × Production)',
        'all_entries = flat (map entries all_nonterminals)',
        '',
        'abbrev pub entry_starts : List ℕ',
        'entry_starts = starts_of 0 (map entries all_nonterminals)',
        '',
        'abbrev pub all_rests : List (Option Production)',
        'all_rests = map rest all_nonterminals',
    ]


def by_cases(name, kind, letter, statement, first, visible=''):
    """A statement that computes to an equation of like sides for each variant of a type."""
    return ['', f'{visible}{name} : ({letter} : {kind}) → {statement}', f'{name} {kind.lower()}s.{first} = refl', f'{name} _ = refl']


def write_lemmas(grammar, crate):
    out = [
        '-- The rows of the tables in code are those of the grammar.',
        'use Rattle.std.proofs.Common.{◌≡◌, refl, true}',
        'use Rattle.std.specs.Prelude.{nat_lt, length, slice_get, Some}',
        'use denote.Enum.Declared.{tag_of}',
        'use Rattle.grammar.specs.Rows.{has_row, row_of}',
    ] + uses(crate, 'Nonterminal', 'Production') + [use_type(crate, name) for name in ('Nonterminal', 'Production')] + [
        f'use Rattle.{crate}.specs.Table.{{symbols, all_symbols, symbol_starts}}',
        f'use Rattle.{crate}.specs.ParseTable.{{entries, rest, all_entries, entry_starts, all_rests}}',
    ]
    p, n = ('Production', 'p', 'tag_of production_type p', grammar.productions[0]), ('Nonterminal', 'n', 'tag_of nonterminal_type n', grammar.nonterminals[0])
    for name, (kind, letter, number, first), statement in (
        ('symbols_stand', p, 'has_row all_symbols symbol_starts ({}) ≡ true'),
        ('symbols_found', p, 'row_of all_symbols symbol_starts ({}) ≡ symbols p'),
        ('entries_stand', n, 'has_row all_entries entry_starts ({}) ≡ true'),
        ('entries_found', n, 'row_of all_entries entry_starts ({}) ≡ entries n'),
        ('rest_stands', n, 'nat_lt ({}) (length all_rests) ≡ true'),
        ('rest_found', n, 'slice_get all_rests ({}) ≡ Some (rest n)'),
    ):
        out += by_cases(name, kind, letter, statement.format(number), first, 'pub ')
    return out


def write_invariant(grammar, crate):
    return [
        '-- The search of an entry: what the entries still to come have is what all have.',
        'use Rattle.std.proofs.Common.{◌≡◌, drop}',
        'use denote.Enum.Bare.{sameb}',
        'use Rattle.grammar.specs.Rows.{found}',
        use_type(crate, 'Terminal'),
        f'use Rattle.{crate}.proofs.parse_table.chosen.Given as goal',
        '',
        'abbrev pub invariant-loop-terminal : goal.invariant-loop-terminal',
        'invariant-loop-terminal l =',
        '    found (sameb terminal_type) l.seen l.choices l.other ≡ found (sameb terminal_type) l.seen (drop l.terminal-index l.choices) l.other',
    ]


def write_certificate(grammar, crate):
    out = [
        '-- FIRST and FOLLOW of each nonterminal, and the other tables that show the grammar sound.',
        'use Rattle.std.specs.Prelude.{ℕ, Bool, true, false, List, [], ◌∷◌}',
        'use Rattle.grammar.specs.Certificate.{Nullable, Never, Before, Always}',
    ] + uses(crate, *TYPES) + ['', 'abbrev pub all_terminals : List Terminal', f'all_terminals = {listed(grammar.terminals)}']

    def nullable(n):
        vacant = grammar.nullable[n]
        return 'Never' if vacant is None else 'Always' if vacant is ALL else f'Before ({items(grammar, vacant)})'

    for comment, name, kind, value in (
        ('what may begin it', 'first', 'List Terminal', lambda n: items(grammar, grammar.first[n])),
        ('what may follow it', 'follow', 'List Terminal', lambda n: items(grammar, grammar.follow[n])),
        ('before which it may be empty', 'nullable', 'Nullable Terminal', nullable),
        ('more than all that it may begin with', 'cost', 'ℕ', lambda n: str(grammar.cost[n])),
        ('a short text of it', 'closing', 'List Terminal', lambda n: listed(grammar.closing[n])),
        ('the production of that text', 'shortest', 'Production', lambda n: f'productions.{grammar.shortest[n]}'),
        ('how deep that text is', 'height', 'ℕ', lambda n: str(grammar.height[n])),
        ('before which terminals that text stands', 'before', 'List Terminal', lambda n: items(grammar, grammar.before[n])),
        ('whether its texts have no end of the text', 'inner', 'Bool', lambda n: 'true' if grammar.inner[n] else 'false'),
    ):
        rows = [(f'nonterminals.{n}', value(n)) for n in grammar.nonterminals]
        out += ['', f'-- {comment}', f'abbrev pub {name} : Nonterminal → {kind}'] + clauses(name, rows)
    return out


# Each test of the certificate that holds of all terminals, nonterminals or productions: its name, of which it holds, and what computes to true.
LAWS = (
    ('terminals', 'Terminal', 'member certificate k all_terminals'),
    ('first', 'Production', 'subset certificate (first_symbols certificate (symbols p)) (first (nonterminal_of p))'),
    ('nullable', 'Production', 'covers (grammar_with value build) certificate p (nullable_symbols certificate (symbols p)) (nullable (nonterminal_of p))'),
    ('predicts_first', 'Production', 'predicts certificate (nonterminal_of p) p (first_symbols certificate (symbols p))'),
    ('predicts_empty', 'Production', 'predicts_allowed (grammar_with value build) certificate (nonterminal_of p) p '
        '(through certificate (nullable_symbols certificate (symbols p)) (follow (nonterminal_of p)))'),
    ('follow', 'Production', 'follows certificate (nonterminal_of p) (symbols p)'),
    ('offers', 'Nonterminal', 'all_offered (grammar_with value build) certificate n all_terminals'),
    ('cost', 'Production', 'nat_lt (suc (opening_cost certificate (symbols p))) (cost (nonterminal_of p))'),
    ('closing', 'Nonterminal', 'same_list certificate (closing n) (closings certificate (symbols (shortest n)))'),
    ('height', 'Nonterminal', 'is_below certificate (height n) (symbols (shortest n))'),
    ('begins', 'Nonterminal', 'begins_by certificate n (shortest n) (closing n)'),
    ('fits', 'Production', 'can_close certificate (λ m. subset certificate (before (nonterminal_of p)) (before m)) (symbols p)'),
    ('inner', 'Production', 'implies (inner (nonterminal_of p)) (all_inner certificate (symbols p))'),
)


def write_laws(grammar, crate, language):
    firsts = {'Terminal': ('k', grammar.terminals[0]), 'Nonterminal': ('n', grammar.nonterminals[0]), 'Production': ('p', grammar.productions[0])}
    out = [
        '-- The tables are sound whatever a grammar makes of a text: each test computes to true, for each terminal, nonterminal and production.',
        'use Rattle.std.specs.Prelude.{◌≡◌, true, suc, nat_lt, List, refl}',
        'use Rattle.ground.specs.declared.token.Token.{Token}',
    ] + uses(crate, *TYPES) + [
        'use Rattle.grammar.specs.Lookahead.{implies}',
        'use Rattle.grammar.specs.Certificate.{IsSound, member, subset, nullable_symbols, through, first_symbols, predicts, predicts_allowed, follows, '
        'opening_cost, same_list, closings, is_below, begins_by, can_close, all_inner, covers, all_offered}',
        'use denote.Enum.Bare.{same_true, true_same}',
    ] + [use_type(crate, name) for name in TYPES] + [
        f'use Rattle.{crate}.specs.{language}.{{grammar_with, certificate}}',
        f'use Rattle.{crate}.specs.Table.{{symbols, nonterminal_of}}',
        f'use Rattle.{crate}.specs.LookaheadTables.{{all_terminals, first, follow, nullable, cost, closing, shortest, height, before, inner}}',
    ]
    laws = [(f'{name}_law', kind, f'{test} ≡ true') for name, kind, test in LAWS]
    laws.append(('example_law', 'Terminal', '(grammar_with value build).terminal_of (certificate.example k) ≡ k'))
    for name, kind, statement in laws:
        if 'grammar_with' not in statement:
            letter, first = firsts[kind]
            out += by_cases(name, kind, letter, statement, first)
    out += ['', 'module _ {V : Type 0} (value : Token → V) (build : Production → List V → V) where']
    inner = []
    for name, kind, statement in laws:
        if 'grammar_with' in statement:
            letter, first = firsts[kind]
            inner += by_cases(name, kind, letter, statement, first)
    inner += ['', 'pub sound : IsSound (grammar_with value build) certificate', 'sound = record {']
    inner += [f'  same_{x} = record {{ is = same_true {x}_type tt; own = λ a. true_same {x}_type a a refl }};' for x in map(str.lower, TYPES)]
    inner += [f'  {name.removesuffix("_law")} = {name};' for name, _, _ in laws]
    inner += ['  start_fits = refl;', '  ends = refl;', '}']
    return out + [f'  {line}' if line else line for line in inner[1:]]


def signed(lines, source):
    """The first line says what the file is for, and then what wrote it."""
    return [f'{lines[0]} tools/grammar_tables.py writes it from {source}.'] + lines[1:]


def main():
    source, crate, folder, language = sys.argv[1:]
    grammar = Grammar(open(source).read())
    for path, lines in (
        ('src/table.rt', write_types(grammar)),
        ('src/symbols.rt', write_symbols(grammar, crate)),
        ('src/parse_table.rt', write_parse_table(grammar, crate)),
        ('specs/Table.antt', write_table(grammar, crate)),
        ('specs/ParseTable.antt', write_entries(grammar, crate)),
        ('specs/LookaheadTables.antt', write_certificate(grammar, crate)),
        (f'specs/{language}Sound.antt', write_laws(grammar, crate, language)),
        ('proofs/TableLemmas.antt', write_lemmas(grammar, crate)),
        ('proofs/parse_table/chosen/Invariants.antt', write_invariant(grammar, crate)),
    ):
        os.makedirs(os.path.dirname(f'{folder}/{path}'), exist_ok=True)
        open(f'{folder}/{path}', 'w').write('\n'.join(signed(lines, os.path.basename(source))) + '\n')
    count = sum(len(row) for row in grammar.table.values())
    print(f'{len(grammar.terminals)} terminals, {len(grammar.nonterminals)} nonterminals, {len(grammar.productions)} productions, {count} entries')


if __name__ == '__main__':
    main()
