#!/usr/bin/env python3
"""Writes what repeats by type in the catalogue's crates from fields.tsv, cases.tsv and types.tsv.

    catalogue/write.py            write the files, laid out by rt fmt and tools/lines.py
    catalogue/write.py --check    say which files are not as written (exit status 1), and write nothing

fields.tsv has a line for each row of each layout: layout number, mnemonic of the annex, struct, field of the annex,
lowest bit, width, highest admitted value, English name, type (bool, an enum of cases.tsv, or - where reserved).
cases.tsv has a line for each named case of each enum: enum, value, case, meaning.
types.tsv has a line for each type that is carried: X of the catalogue, type, number of its layout.
A line that doesn't fit is refused. Law files kept by hand, proofs/Annex.antt of cases, states and elements, check the names against
the annex; this program leaves them alone.
A function whose goals Rattle answers by itself has no proof file, and of the functions written here all are but `marks` of kinds.
"""
import itertools
import os
import shutil
import subprocess
import sys
import tempfile

HERE = os.path.dirname(os.path.abspath(__file__))
ROOT = os.path.dirname(HERE)
sys.path.append(os.path.join(ROOT, 'tools'))
from lines import lay_out
CRATES = ['rows', 'cases', 'states', 'kinds', 'elements']  # with files written here
BY_HAND = 'Annex.antt'
# folders in which every file but BY_HAND is written here
WHOLE = [f'{crate}/{part}' for crate in ('cases', 'states', 'kinds') for part in ('src', 'specs', 'proofs')]


class Line(dict):
    """A line of a table by its columns. If something is wrong with it, it says where it is."""

    def __init__(self, file, place, head, cells):
        super().__init__(zip(head, cells))
        self.file, self.place = file, place
        self.need(len(cells) == len(head), f'{len(cells)} columns and not {len(head)}')
        self.need(all(cell and cell == cell.strip() for cell in cells), 'a column is empty or has a blank at its end')

    def need(self, holds, why):
        if not holds:
            sys.exit(f'catalogue/{self.file}, line {self.place}: {why}')

    def number(self, column, least, most):
        text = self[column]
        self.need(text.isascii() and text.isdigit() and text == str(int(text)) and least <= int(text) <= most,
                  f'{column} is {text}, which is no number from {least} to {most} (without leading zeros)')
        return int(text)


def table(name):
    with open(os.path.join(HERE, name)) as f:
        lines = [line.rstrip('\n').split('\t') for line in f]
    return [Line(name, place, lines[0], cells) for place, cells in enumerate(lines[1:], 2)]


class Row:
    def __init__(self, place, line):
        self.place, self.line = place, line
        self.field, self.name, self.type = line['field'], line['name'], line['type']
        self.low, self.width = line.number('low', 0, 31), line.number('width', 1, 32)
        self.top = line.number('top', 0, min(2 ** self.width - 1, 255))
        self.reserved, self.bit = self.type == '-', self.type == 'bool'
        line.need(self.reserved == (self.top == 0) == (self.name == '-'), 'a reserved row, and no other, has top 0, name - and type -')
        line.need(self.reserved or self.bit == (self.width == 1), 'a field of one bit, and no other, is a bool')
        self.named = not self.reserved and not self.bit


class Layout:
    def __init__(self, place, number, mnemonic, struct, first, rows):
        self.place, self.number, self.mnemonic, self.struct = place, number, mnemonic, struct
        self.first, self.rows = first, rows
        self.bytes = (rows[-1].low + rows[-1].width) // 8
        self.dat = rows[0].field == 'DAT'
        self.key = snake(struct)
        self.fields = [r for r in rows if not r.reserved]
        self.named = [r for r in rows if r.named]
        narrow = [r for r in rows if r.top + 1 < 2 ** r.width]
        self.add = sum((2 ** r.width - 1 - r.top) << r.low for r in narrow)
        self.carry = sum(1 << r.low + r.width for r in narrow)


def snake(name):
    """A type's name as a module and in a definition: SignalV3 is signal_v3."""
    return ''.join('_' + c.lower() if c.isupper() else c for c in name)[1:]


def read_layouts():
    layouts, first = [], 0
    for _, own in itertools.groupby(table('fields.tsv'), lambda line: line['layout']):
        rows, end = [Row(i, line) for i, line in enumerate(own)], 0
        line = rows[0].line
        number, mnemonic, struct = line.number('layout', 1, 255), line['mnemonic'], line['struct']
        line.need(all(number != l.number for l in layouts), f'layout {number} begins a second time')
        line.need(all(struct != l.struct for l in layouts), f'{struct} is the struct of another layout')
        for r in rows:
            r.line.need((r.line['mnemonic'], r.line['struct']) == (mnemonic, struct), f'the rows of layout {number} begin with {mnemonic} {struct}')
            r.line.need(r.low == end, f'low is {r.low}, and the row before ends below bit {end}')
            end += r.width
        r.line.need(end in (8, 16, 24, 32) and len(rows) <= 24, f'{end} bits in {len(rows)} rows: not 1 to 4 bytes in at most 24 rows')
        layouts.append(Layout(len(layouts), number, mnemonic, struct, first, rows))
        first += len(rows)
    return layouts


def read_enums(layouts):
    enums, named = {}, [r for l in layouts for r in l.named]
    for line in table('cases.tsv'):
        cases = enums.setdefault(line['enum'], [])
        line.need(any(r.type == line['enum'] for r in named), f'no field is of {line["enum"]}')
        line.need(line.number('value', 0, 255) == len(cases), f'the next value of {line["enum"]} is {len(cases)}')
        cases.append((line['case'], line['meaning']))
    for r in named:
        count = len(enums.get(r.type, []))
        r.line.need(count == r.top + 1, f'top is {r.top}, and {r.type} has {count} cases')
    return enums


def read_types(layouts):
    catalogues, carried = {}, set()
    for line in table('types.tsv'):
        types = catalogues.setdefault(line.number('x', 0, 255), {})
        number, layout = line.number('type', 0, 255), line.number('layout', 1, 255)
        line.need(number not in types, f'type {number} is there already')
        line.need(any(l.number == layout for l in layouts), f'fields.tsv has no layout {layout}')
        types[number] = next(l for l in layouts if l.number == layout)
        carried.add(layout)
    for l in layouts:
        l.rows[0].line.need(l.number in carried, f'types.tsv has no type of layout {l.number}')
    return catalogues


LAYOUTS = read_layouts()
ENUMS = read_enums(LAYOUTS)
CATALOGUES = read_types(LAYOUTS)
TOTAL = sum(len(l.rows) for l in LAYOUTS)
STRUCTS = [l.struct for l in LAYOUTS]


def names(words):
    return ', '.join(words)


def by_enum(*ends):
    """The names that belong to each enum, with these ends."""
    return names(snake(e) + end for e in ENUMS for end in ends)


def by_layout(*ends):
    """The names that belong to each layout's struct, with these ends."""
    return names(l.key + end for l in LAYOUTS for end in ends)


# ---- rows: the rows and the layouts

def rows_source():
    body = ''
    for l in LAYOUTS:
        for r in l.rows:
            body += f'    {l.number}, {r.low}, {r.width}, {r.top}, // {l.mnemonic} {"reserved" if r.reserved else r.field}\n'
    return f'''// Every row of every layout. Written by catalogue/write.py from catalogue/fields.tsv.

// The number of rows of all layouts together.
pub const ROW_TOTAL: usize = {TOTAL};

// Four numbers for each row: its layout, lowest bit, width and highest admitted value (0: reserved).
pub type Cells = [u8; 4 * ROW_TOTAL];

pub const ROWS: Cells = [
{body}];
'''


def rows_specs():
    rows = '\n'.join(f'    {l.number} ∷ {r.low} ∷ {r.width} ∷ {r.top} ∷' for l in LAYOUTS for r in l.rows)
    layouts = ''.join(
        f'    layout {l.number} {l.first} {len(l.rows)} {l.bytes} {"true" if l.dat else "false"} ∷\n' for l in LAYOUTS)
    return f'''-- Every row of every layout in one constant: {TOTAL} rows of layout, lowest bit, width and highest admitted value (0: reserved).
-- Then the layouts: number, first row, number of rows, width in bytes, and whether bit 0 is DAT.
-- Written by catalogue/write.py.
use Rattle.std.specs.Prelude.{{Bool, true, false, List, [], ◌∷◌, ℕ, zero, suc, ◌+◌, ◌*◌, get_or}}
use Rattle.rows.specs.declared.Layout.{{Layout}}

abbrev pub row_total : ℕ
row_total = {TOTAL}

unfoldable pub cells : List ℕ
cells =
{rows}
    []

abbrev pub layout : ℕ → ℕ → ℕ → ℕ → Bool → Layout
layout number first count bytes dat = record {{ number = number; first = first; count = count; bytes = bytes; dat = dat }}

unfoldable pub layouts : List Layout
layouts =
{layouts}    []

-- the layout at a place; past the end, one without rows
abbrev pub layout_at : ℕ → Layout
layout_at i = get_or layouts i (layout 0 0 0 0 false)

-- a row: a field's lowest bit, its width and its highest admitted value
pub record Row : Type 0 where
  pub low : ℕ
  pub width : ℕ
  pub top : ℕ

-- the number at a place: four for each row
abbrev pub cell_at : ℕ → ℕ
cell_at place = get_or cells place 0

-- row i
abbrev pub row_at : ℕ → Row
row_at i = record {{ low = cell_at (4 * i + 1); width = cell_at (4 * i + 2); top = cell_at (4 * i + 3) }}

-- the number of the layout that row i belongs to
abbrev pub number_at : ℕ → ℕ
number_at i = cell_at (4 * i)

-- n rows from row i on
abbrev pub rows_from : ℕ → ℕ → List Row
rows_from i zero = []
rows_from i (suc n) = row_at i ∷ rows_from (suc i) n
'''


# ---- cases: an enum for each field wider than one bit

def cases_source():
    text = f'''// The floor of cases: the named cases of every field wider than one bit, in the order of their values from 0 up. From a value comes its
// case, and from a case its value. Written by catalogue/write.py from catalogue/cases.tsv. It checks nothing: a value without a case is
// read as the first. The `from`s are alike because each is its enum's cases and no more; a macro may write no impl here.
#![tactic(auto)]

ghost use Rattle.std.specs.Prelude.{{◌≡◌}};
ghost use Rattle.cases.specs.Cases.{{{by_enum('_of', '_no')}}};
'''
    for e, cases in ENUMS.items():
        text += f'\n#[derive(Clone, Copy)]\npub enum {e} {{\n' + ''.join(f'    {c}, // {m}\n' for c, m in cases) + '}\n'
        text += f'''
impl From<u32> for {e} {{
    ghost from_gives = {{ λ value case. case ≡ {snake(e)}_of value }};

    fn from(value: u32) -> {e} {{
        match value {{
{''.join(f"            {i} => {e}::{c},{chr(10)}" for i, (c, _) in enumerate(cases))}            _ => {e}::{cases[0][0]},
        }}
    }}
}}

impl From<{e}> for u32 {{
    ghost from_gives = {{ λ case value. value ≡ {snake(e)}_no case }};

    fn from(case: {e}) -> u32 {{
        case as u32
    }}
}}
'''
    return text


def cases_specs():
    text = '''-- For every field wider than one bit: its named cases in the order of their values, the case of a value (the first if it has none),
-- and the value of a case.
-- Written by catalogue/write.py.
use Rattle.std.specs.Prelude.{List, [], ◌∷◌, ℕ, get_or}
'''
    for e in ENUMS:
        text += f'use Rattle.cases.specs.declared.{e}.{{{e}}}\n'
    for e, cases in ENUMS.items():
        l = snake(e)
        text += f'\nabbrev pub {l}_cases : List {e}\n{l}_cases = {" ∷ ".join(f"{e}.{c}" for c, _ in cases)} ∷ []\n'
        text += f'\nabbrev pub {l}_of : ℕ → {e}\n{l}_of v = get_or {l}_cases v {e}.{cases[0][0]}\n'
        text += f'\nabbrev pub {l}_no : {e} → ℕ\n' + ''.join(f'{l}_no {e}.{c} = {i}\n' for i, (c, _) in enumerate(cases))
    return text


def cases_laws():
    text = '''-- A value read as a case and written back is the same if it is listed, and else 0; a case written as a value is read back.
-- Written by catalogue/write.py. Assumes nothing.
use mathlib.Core.Path.{◌≡◌, refl}
use Prim.Native.Nat.{ℕ}
use Rattle.rows.proofs.Listed.{listed, named}
'''
    text += f'use Rattle.cases.specs.Cases.{{{by_enum("_cases", "_of", "_no")}}}\n'
    for e in ENUMS:
        text += f'use Rattle.cases.specs.declared.{e}.{{{e}}}\n'
    for e, cases in ENUMS.items():
        l, top = snake(e), len(cases) - 1
        text += f'\npub {l}_listed : (v : ℕ) → {l}_no ({l}_of v) ≡ listed {top} v\n'
        text += f'{l}_listed = named {l}_no {l}_cases {e}.{cases[0][0]} {top} tt refl refl\n'
        text += f'\npub {l}_back : (c : {e}) → {l}_of ({l}_no c) ≡ c\n' + ''.join(f'{l}_back {e}.{c} = refl\n' for c, _ in cases)
    return text


# ---- states: a struct for each layout

def states_source():
    text = '''// The floor of states: for each layout a module with its struct of named fields, its width in bytes, its state without data if bit 0
// is DAT, and the way from its fields' values in the rows' order to a state and back. Written by catalogue/write.py from
// catalogue/fields.tsv. It checks nothing. The comment beside a field is its mnemonic in the first annex that prints the layout.
// No trait of its own joins the structs: each caller has an arm for each kind, so none would be generic over it.
#![tactic(auto)]

'''
    text += ''.join(f'mod {snake(s)};\n' for s in sorted(STRUCTS)) + '\n'
    return text + ''.join(f'pub use {snake(s)}::{s};\n' for s in sorted(STRUCTS))


def state_source(l):
    under = ' and '.join(f'type {number} under X = {x}' for x, types in CATALOGUES.items() for number, layout in types.items() if layout is l)
    text = f'// Layout {l.number}: {l.mnemonic}, {under}. Written by catalogue/write.py.\n'
    text += f'''ghost use Rattle.std.specs.Prelude.{{◌≡◌{", []" if l.dat else ""}}};
ghost use Rattle.rows.specs.Values.{{padded}};
ghost use Rattle.states.specs.States.{{{l.key}_of, {l.key}_values}};

'''
    text += ''.join(f'use cases::{e};\n' for e in sorted({r.type for r in l.named}))
    text += f'''
#[derive(Clone, Copy)]
pub struct {l.struct} {{
'''
    text += ''.join(f'    pub {r.name}: {r.type}, // {r.field}\n' for r in l.fields) + '}\n'
    text += f'\nimpl {l.struct} {{\n    pub const WIDTH: usize = {l.bytes};\n'
    if l.dat:
        text += f'\n    pub const WITHOUT_DATA: {l.struct} = {l.struct} {{\n'
        text += ''.join(f'        {r.name}: {"false" if r.bit else r.type + "::" + ENUMS[r.type][0][0]},\n' for r in l.fields)
        text += f'''    }};

    pub fn without_data() -> {l.struct}
        ensures {{ result ≡ {l.key}_of [] }}
    {{
        {l.struct}::WITHOUT_DATA
    }}
'''
    text += f'''}}

impl From<[u32; 24]> for {l.struct} {{
    ghost from_gives = {{ λ values state. state ≡ {l.key}_of values }};

    fn from(values: [u32; 24]) -> {l.struct} {{
        {l.struct} {{
'''
    for r in l.fields:
        value = f'values[{r.place}] == 1' if r.bit else f'{r.type}::from(values[{r.place}])'
        text += f'            {r.name}: {value},\n'
    text += f'''        }}
    }}
}}

impl From<{l.struct}> for [u32; 24] {{
    ghost from_gives = {{ λ state values. values ≡ padded ({l.key}_values state) }};

    fn from(state: {l.struct}) -> [u32; 24] {{
        [
'''
    for r in l.rows:
        value = '0' if r.reserved else f'state.{r.name} as u32' if r.bit else f'u32::from(state.{r.name})'
        text += f'            {value},\n'
    return text + '            0,\n' * (24 - len(l.rows)) + '        ]\n    }\n}\n'


def states_specs():
    text = '''-- For each layout: the state from its fields' values in the rows' order, and a state's values (a reserved row's is 0).
-- Written by catalogue/write.py.
use Rattle.std.specs.Prelude.{List, [], ◌∷◌, ℕ, get_or, eqb}
use Rattle.rows.specs.Values.{bit_no}
'''
    text += f'use Rattle.cases.specs.Cases.{{{by_enum("_of", "_no")}}}\n'
    for s in STRUCTS:
        text += f'use Rattle.states.specs.declared.{snake(s)}.{s}.{{{s}}}\n'
    for l in LAYOUTS:
        text += f'\nabbrev pub {l.key}_of : List ℕ → {l.struct}\n{l.key}_of vs = record {{\n'
        for r in l.fields:
            value = f'eqb (get_or vs {r.place} 0) 1' if r.bit else f'{snake(r.type)}_of (get_or vs {r.place} 0)'
            text += f'  {r.name} = {value};\n'
        text += f'}}\n\nabbrev pub {l.key}_values : {l.struct} → List ℕ\n{l.key}_values s =\n'
        for r in l.rows:
            value = '0' if r.reserved else f'bit_no s.{r.name}' if r.bit else f'{snake(r.type)}_no s.{r.name}'
            text += f'    {value} ∷\n'
        text += '    []\n'
    return text


def states_laws():
    text = '''-- For each layout: a state made from values keeps the listed ones (the others become 0), and a state's values make that state again.
-- Written by catalogue/write.py. Assumes nothing.
use mathlib.Core.Path.{◌≡◌}
use mathlib.Core.List.{List, [], ◌∷◌}
use Prim.Native.Nat.{ℕ}
use lib.ListN.{get_or}
use Rattle.rows.specs.Rows.{cells, rows_from}
use Rattle.rows.specs.Values.{padded}
use Rattle.rows.proofs.Listed.{listed_from, bit_listed, bit_back, reserved_listed}
'''
    text += f'use Rattle.cases.proofs.CaseLaws.{{{by_enum("_listed", "_back")}}}\n'
    text += f'use Rattle.states.specs.States.{{{by_layout("_of", "_values")}}}\n'
    for s in STRUCTS:
        text += f'use Rattle.states.specs.declared.{snake(s)}.{s}.{{{s}}}\n'
    for l in LAYOUTS:
        text += f'\npub {l.key}_listed : (vs : List ℕ) → {l.key}_values ({l.key}_of vs) ≡ listed_from 0 (rows_from {l.first} {len(l.rows)}) vs\n'
        text += f'unfolding cells\n{l.key}_listed vs =\n    λ i.\n'
        for r in l.rows:
            law = 'reserved' if r.reserved else 'bit' if r.bit else snake(r.type)
            text += f'    {law}_listed (get_or vs {r.place} 0) i ∷\n'
        text += f'    []\n\npub {l.key}_back : (s : {l.struct}) → {l.key}_of (padded ({l.key}_values s)) ≡ s\n{l.key}_back s = λ i. record {{\n'
        for r in l.fields:
            text += f'  {r.name} = {"bit" if r.bit else snake(r.type)}_back s.{r.name} i;\n'
        text += '}\n'
    return text


# ---- kinds: what depends on the kind

def kinds_source():
    def match(on, value, arm):
        return f'    match {on} {{\n' + ''.join(f'        {arm(l)} => {value(l)},\n' for l in LAYOUTS) + '    }\n}\n'

    kind = lambda l: f'Kind::{l.struct}'
    text = f'''// The floor of kinds: the kinds of element, one for each layout, the state of any kind, and every function that has an arm
// for each kind. Written by catalogue/write.py from catalogue/fields.tsv, where a layout is added. It refuses nothing. The floors above
// read what they need of a kind from its layout.
#![tactic(auto)]

ghost use Rattle.std.specs.Prelude.{{◌≡◌, ◌+◌, ◌≤◌, T, length}};
ghost use Rattle.rows.specs.Values.{{padded}};
ghost use Rattle.rows.specs.Marks.{{marked, Shows}};
ghost use Rattle.kinds.specs.Kinds.{{layout_of, width_of, rows_of, find_by_number, kind_in, element_of, element_values}};
ghost use Rattle.kinds.specs.Glances.{{Glanced}};

use rows::{{Layout, Marks}};
use states::{{{names(sorted(STRUCTS))}}};

// The kinds of element that are carried.
#[derive(Clone, Copy, PartialEq, Eq)]
pub enum Kind {{
{''.join(f"    {s},{chr(10)}" for s in STRUCTS)}}}

// A state of any kind.
#[derive(Clone, Copy)]
pub enum Element {{
{''.join(f"    {s}({s}),{chr(10)}" for s in STRUCTS)}}}

// What a glance at an element gives: its number, and whether each field is shown to have a listed value.
#[derive(Clone, Copy)]
pub struct Glance {{
    pub word: u32,
    pub listed: bool,
}}

// A kind's layout: which rows are its own, its width, and whether it has DAT.
#[tactic(auto, unfolding(rows::specs::Rows::layouts))]
pub fn layout(kind: Kind) -> Layout
    ensures {{ result ≡ layout_of kind }}
{{
'''
    text += match('kind', lambda l: f'''Layout {{
            number: {l.number},
            first: {l.first},
            count: {len(l.rows)},
            bytes: {l.struct}::WIDTH,
            dat: {'true' if l.dat else 'false'},
        }}''', kind)
    text += '''
// A kind's marks. The contract checks them against its rows.
fn marks(kind: Kind) -> Marks
    ensures { T (marked result.add result.carry (rows_of kind)) }
{
''' + match('kind', lambda l: f'Marks {{ add: {l.add:#x}, carry: {l.carry:#x} }}', kind) + '''
// Whether a glance at an element's number shows that each field has a listed value. If it doesn't, the rows decide.
#[tactic(auto, using(rows::proofs::Glance::shows))]
pub fn shows_listed(word: u32, kind: Kind) -> bool
    ensures { Shows (rows_of kind) word result }
{
    rows::carries_none(word, marks(kind))
}

// A glance at the element at a place. Each kind has its own arm, in which its width and its marks are known to the compiler.
#[tactic(auto, unfolding(rows::specs::Rows::layouts))]
pub fn glance_at(s: &[u8], at: usize, kind: Kind) -> Glance
    requires { at + width_of kind ≤ length s.now }
    ensures { Glanced kind s.now at result }
{
''' + match('kind', lambda l: f'glance_by(s, at, kind, {l.struct}::WIDTH)', kind) + '''
// One arm of `glance_at`: the kind, and its width as a constant.
fn glance_by(s: &[u8], at: usize, kind: Kind, width: usize) -> Glance
    requires { (width ≡ width_of kind) × (width ≤ 4) × (at + width_of kind ≤ length s.now) }
    ensures { Glanced kind s.now at result }
{
    let word = octets::get_at(s, at, width);
    let listed = shows_listed(word, kind);
    Glance { word, listed }
}

// The kind whose layout has this number, if there is one.
#[tactic(auto, unfolding(rows::specs::Rows::layouts))]
pub fn find_by_number(number: u8) -> Option<Kind>
    ensures { result ≡ find_by_number number }
{
    match number {
''' + ''.join(f'        {l.number} => return Some(Kind::{l.struct}),\n' for l in LAYOUTS) + '''        _ => return None,
    }
}

// The kind of a state.
pub fn kind_in(element: Element) -> Kind
    ensures { result ≡ kind_in element }
{
''' + match('element', kind, lambda l: f'Element::{l.struct}(_)') + '''
// A kind's state from its fields' values in the rows' order.
pub fn element_of(kind: Kind, values: [u32; 24]) -> Element
    ensures { result ≡ element_of kind values }
{
''' + match('kind', lambda l: f'Element::{l.struct}({l.struct}::from(values))', kind) + '''
// A state's fields' values in the rows' order, padded with zeros.
pub fn values_of(element: Element) -> [u32; 24]
    ensures { result ≡ padded (element_values element) }
{
''' + match('element', lambda l: '<[u32; 24]>::from(state)', lambda l: f'Element::{l.struct}(state)')
    return text


def kinds_specs():
    kinds = ' ∷ '.join(f'Kind.{s}' for s in STRUCTS)
    text = '''-- The kinds of element, one for each layout; the layout of each; the state of any kind, from its fields' values and back.
-- Written by catalogue/write.py.
use Rattle.std.specs.Prelude.{cond, List, [], ◌∷◌, map, ℕ, eqb, Option, Some, None}
use Rattle.rows.specs.Rows.{Row, layout_at}
use Rattle.rows.specs.Covering.{layout_rows}
use Rattle.rows.specs.declared.Layout.{Layout}
'''
    text += f'use Rattle.states.specs.States.{{{by_layout("_of", "_values")}}}\n'
    text += f'''use Rattle.kinds.specs.declared.Kind.{{Kind}}
use Rattle.kinds.specs.declared.Element.{{Element}}

abbrev pub kinds : List Kind
kinds = {kinds} ∷ []

-- a kind's place among them, which is its layout's place among the layouts
abbrev pub place : Kind → ℕ
{''.join(f"place Kind.{l.struct} = {l.place}{chr(10)}" for l in LAYOUTS)}
abbrev pub layout_of : Kind → Layout
layout_of k = layout_at (place k)

abbrev pub layout_no : Kind → ℕ
layout_no k = (layout_of k).number

abbrev pub width_of : Kind → ℕ
width_of k = (layout_of k).bytes

abbrev pub rows_of : Kind → List Row
rows_of k = layout_rows (layout_of k)

-- a number, and the kind that it stands for
pub record KindLine : Type 0 where
  pub number : ℕ
  pub kind : Kind

abbrev pub kind_line : ℕ → Kind → KindLine
kind_line number kind = record {{ number = number; kind = kind }}

-- the kind that a number stands for, by the first line that has it
abbrev pub find_in : ℕ → List KindLine → Option Kind
find_in n [] = None
find_in n (l ∷ ls) = cond (eqb n l.number) (Some l.kind) (find_in n ls)

-- a line for each kind, with the number of its layout
abbrev pub kind_lines : List KindLine
kind_lines = map (λ (k : Kind). kind_line (layout_no k) k) kinds

abbrev pub find_by_number : ℕ → Option Kind
find_by_number n = find_in n kind_lines

abbrev pub element_of : Kind → List ℕ → Element
{''.join(f"element_of Kind.{l.struct} vs = Element.{l.struct} ({l.key}_of vs){chr(10)}" for l in LAYOUTS)}
abbrev pub element_values : Element → List ℕ
{''.join(f"element_values (Element.{l.struct} s) = {l.key}_values s{chr(10)}" for l in LAYOUTS)}
abbrev pub kind_in : Element → Kind
{''.join(f"kind_in (Element.{s} s) = Kind.{s}{chr(10)}" for s in STRUCTS)}'''
    return text


def glance_specs():
    return '''-- A glance at the element at a place: a shortcut of the code, nothing to believe.
-- Written by catalogue/write.py.
use Rattle.std.specs.Prelude.{◌≡◌, List, ℕ, take, drop}
use Rattle.octets.specs.Octets.{number}
use Rattle.rows.specs.Marks.{Shows}
use Rattle.kinds.specs.Kinds.{width_of, rows_of}
use Rattle.kinds.specs.declared.Kind.{Kind}
use Rattle.kinds.specs.declared.Glance.{Glance}

-- the element's number, and what a glance says of its fields
pub record Glanced (k : Kind) (b : List ℕ) (at : ℕ) (r : Glance) : Type 0 where
  pub read : r.word ≡ number (take (width_of k) (drop at b))
  pub shown : Shows (rows_of k) r.word r.listed
'''


def lookup_law():
    return '''-- Looking up a number among lines: what a test says of every line holds of the line found.
-- Written by catalogue/write.py. Assumes nothing.
use mathlib.Core.Path.{◌≡◌, refl, subst, subst⁻¹}
use mathlib.Core.Bool.{Bool, true, false, cond, ◌&&◌}
use mathlib.Core.List.{List, [], ◌∷◌}
use Prim.Native.Nat.{ℕ}
use native.Mathlib.Omega.{arith}
use lib.Dec.{T, eqb}
use borrow.Author.Tests.{eqb-true}
use Rattle.std.proofs.Common.{Some}
use Rattle.rows.proofs.Tests.{both_left, both_right}
use Rattle.kinds.specs.Kinds.{KindLine, find_in}
use Rattle.kinds.specs.declared.Kind.{Kind}

abbrev pub all_lines : (ℕ → Kind → Bool) → List KindLine → Bool
all_lines test [] = true
all_lines test (l ∷ ls) = test l.number l.kind && all_lines test ls

pub every_line : (test : ℕ → Kind → Bool) (n : ℕ) (ls : List KindLine) → T (all_lines test ls) → {k : Kind}
    → find_in n ls ≡ Some k → T (test n k)
every_line test n [] t e = absurd (let z : ◌≡◌ {A = ℕ} 0 1 = cc in omega arith)
every_line test n (l ∷ ls) t {k} e =
    at (eqb n l.number) refl (every_line test n ls (both_right (test l.number l.kind) (all_lines test ls) t)) e
  where
    here : (j : Kind) → T (test l.number j) → Some j ≡ Some k → n ≡ l.number
        → T (test n k)
    here j h e q =
        subst⁻¹ (λ (m : ℕ). T (test m k)) q
        (let same : j ≡ k = cc in subst (λ (j : Kind). T (test l.number j)) same h)

    at : (b : Bool) → eqb n l.number ≡ b → (find_in n ls ≡ Some k → T (test n k))
        → cond b (Some l.kind) (find_in n ls) ≡ Some k → T (test n k)
    at true q rest e =
        here l.kind (both_left (test l.number l.kind) (all_lines test ls) t) e (eqb-true n l.number q)
    at false q rest e = rest e
'''


def kinds_laws():
    text = '''-- For each kind: it has a layout, the layout's number finds it, a state made from values keeps the listed ones, and a state's values
-- make that state again.
-- Written by catalogue/write.py. Assumes nothing.
use mathlib.Core.Path.{◌≡◌, refl, ap}
use mathlib.Core.List.{List, [], map}
use Prim.Native.Nat.{ℕ, ◌<◌}
use lib.Dec.{lit<}
use lib.ListN.{length, get_or}
use Rattle.std.proofs.Common.{Some}
use Rattle.rows.specs.Rows.{cells, layouts}
use Rattle.rows.specs.Values.{padded, values_of}
use Rattle.rows.proofs.Listed.{listed_from}
'''
    text += f'use Rattle.states.proofs.StateLaws.{{{by_layout("_listed", "_back")}}}\n'
    text += f'''use Rattle.kinds.specs.Kinds.{{kinds, place, layout_no, rows_of, find_by_number, element_of, element_values, kind_in}}
use Rattle.kinds.specs.declared.Kind.{{Kind}}
use Rattle.kinds.specs.declared.Element.{{Element}}

-- two functions that agree on the list of all kinds agree on each, so a table with a line for each kind is one computation
pub every_kind : {{A : Type 0}} (f g : Kind → A) → map f kinds ≡ map g kinds → (k : Kind) → f k ≡ g k
{''.join(f"every_kind {{A}} f g e Kind.{l.struct} = ap (λ (l : List A). get_or l {l.place} (f Kind.{l.struct})) e{chr(10)}" for l in LAYOUTS)}
pub placed : (k : Kind) → place k < length layouts
unfolding layouts
{''.join(f"placed Kind.{s} = lit< tt{chr(10)}" for s in STRUCTS)}
pub kind_found : (k : Kind) → find_by_number (layout_no k) ≡ Some k
unfolding layouts
{''.join(f"kind_found Kind.{s} = refl{chr(10)}" for s in STRUCTS)}
pub element_listed : (k : Kind) (vs : List ℕ) → element_values (element_of k vs) ≡ listed_from 0 (rows_of k) vs
unfolding layouts
{''.join(f"element_listed Kind.{l.struct} vs = {l.key}_listed vs{chr(10)}" for l in LAYOUTS)}
pub element_back : (e : Element) → element_of (kind_in e) (padded (element_values e)) ≡ e
{''.join(f"element_back (Element.{l.struct} s) = ap Element.{l.struct} ({l.key}_back s){chr(10)}" for l in LAYOUTS)}
pub element_kind : (k : Kind) (vs : List ℕ) → kind_in (element_of k vs) ≡ k
{''.join(f"element_kind Kind.{s} vs = refl{chr(10)}" for s in STRUCTS)}
-- the number 0 is read as the state of no values, which is the one without data if the kind has DAT
pub zero_state : (k : Kind) → element_of k (padded (values_of 0 (rows_of k))) ≡ element_of k []
unfolding cells layouts
{''.join(f"zero_state Kind.{s} = refl{chr(10)}" for s in STRUCTS)}'''
    return text


def marks_proof():
    text = '''-- `kinds::marks` meets its contract: each kind's marks are checked against its rows.
-- Written by catalogue/write.py. Assumes nothing.
use mathlib.Core.Path.{◌≡◌, subst⁻¹}
use Prim.Native.Nat.{ℕ}
use lib.Dec.{T}
use Rattle.rows.specs.Rows.{cells, layouts}
use Rattle.rows.specs.Marks.{marked}
use Rattle.kinds.specs.Kinds.{rows_of}
use Rattle.kinds.specs.declared.Kind.{Kind}
use Rattle.kinds.proofs.marks.Goals as goal

fits : (add carry : ℕ) {k j : Kind} → k ≡ j → T (marked add carry (rows_of j)) → T (marked add carry (rows_of k))
fits add carry e t = subst⁻¹ (λ (k : Kind). T (marked add carry (rows_of k))) e t
'''
    for s in STRUCTS:
        text += f'''
pub returns-in-{s} : goal.returns-in-{s}
unfolding cells layouts
returns-in-{s} c = fits _ _ c.in-{s}.is tt
'''
    return text


# ---- elements: which types are carried

def types_source():
    text = f'''// Which types are carried under each catalogue's X, and as which kind. Written by catalogue/write.py from catalogue/types.tsv.
ghost use Rattle.std.specs.Prelude.{{◌≡◌}};
ghost use Rattle.kinds.specs.Kinds.{{find_in}};
ghost use Rattle.elements.specs.Types.{{{names([f"types_under{x}" for x in CATALOGUES] + ["find_by_type"])}}};

use kinds::Kind;

// The kind of a type under a catalogue's X, if it is carried.
pub fn find_by_type(x: u8, ty: u8) -> Option<Kind>
    ensures {{ result ≡ find_by_type x ty }}
{{
    match x {{
{''.join(f"        {x} => return under_{x}(ty),{chr(10)}" for x in CATALOGUES)}        _ => return None,
    }}
}}
'''
    for x, types in CATALOGUES.items():
        text += f'''
fn under_{x}(ty: u8) -> Option<Kind>
    ensures {{ result ≡ find_in ty types_under{x} }}
{{
    match ty {{
{''.join(f"        {t} => return Some(Kind::{l.struct}),{chr(10)}" for t, l in types.items())}        _ => return None,
    }}
}}
'''
    return text


def types_specs():
    text = '''-- Which types are carried under each catalogue's X, and as which kind. No others are.
-- Written by catalogue/write.py.
use Rattle.std.specs.Prelude.{cond, List, [], ◌∷◌, ℕ, eqb, Option, None}
use Rattle.kinds.specs.Kinds.{KindLine, kind_line, find_in}
use Rattle.kinds.specs.declared.Kind.{Kind}
'''
    for x, types in CATALOGUES.items():
        text += f'\n-- the types carried under X = {x}, each with its kind\nabbrev pub types_under{x} : List KindLine\ntypes_under{x} =\n'
        text += ''.join(f'    kind_line {t} Kind.{l.struct} ∷\n' for t, l in types.items()) + '    []\n'
    text += f'''
-- a catalogue: its X and the types carried under it
pub record Catalogue : Type 0 where
  pub x : ℕ
  pub types : List KindLine

abbrev catalogue : ℕ → List KindLine → Catalogue
catalogue x types = record {{ x = x; types = types }}

abbrev pub catalogues : List Catalogue
catalogues = {' ∷ '.join(f"catalogue {x} types_under{x}" for x in CATALOGUES)} ∷ []

-- the kind of a type under an X
abbrev pub find_under : ℕ → ℕ → List Catalogue → Option Kind
find_under x type [] = None
find_under x type (c ∷ cs) = cond (eqb x c.x) (find_in type c.types) (find_under x type cs)

abbrev pub find_by_type : ℕ → ℕ → Option Kind
find_by_type x type = find_under x type catalogues
'''
    return text


# ---- files

def files():
    """The files by their path below crates/."""
    out = {
        'rows/src/catalogue.rt': rows_source(),
        'rows/specs/Rows.antt': rows_specs(),
        'cases/src/lib.rt': cases_source(),
        'cases/specs/Lib.antt': 'pub mod Cases\n',
        'cases/specs/Cases.antt': cases_specs(),
        'cases/proofs/Lib.antt': 'pub mod CaseLaws\npub mod Annex\n',
        'cases/proofs/CaseLaws.antt': cases_laws(),
        'states/src/lib.rt': states_source(),
        'states/specs/Lib.antt': 'pub mod States\n',
        'states/specs/States.antt': states_specs(),
        'states/proofs/Lib.antt': 'pub mod StateLaws\npub mod Annex\n',
        'states/proofs/StateLaws.antt': states_laws(),
        'kinds/src/lib.rt': kinds_source(),
        'kinds/specs/Lib.antt': 'pub mod Kinds\npub mod Glances\n',
        'kinds/specs/Kinds.antt': kinds_specs(),
        'kinds/specs/Glances.antt': glance_specs(),
        'kinds/proofs/Lib.antt': 'pub mod Lookup\npub mod KindLaws\n',
        'kinds/proofs/Lookup.antt': lookup_law(),
        'kinds/proofs/KindLaws.antt': kinds_laws(),
        'kinds/proofs/marks/Answers.antt': marks_proof(),
        'elements/src/types.rt': types_source(),
        'elements/specs/Types.antt': types_specs(),
    }
    for l in LAYOUTS:
        out[f'states/src/{l.key}.rt'] = state_source(l)
    return out


def remove_left(root, paths):
    """Removes what is no longer written from the folders in WHOLE, except the law files kept by hand, and returns its paths."""
    crates, removed = os.path.join(root, 'crates'), []
    for part in WHOLE:
        for folder, _, found in os.walk(os.path.join(crates, part), topdown=False):
            for name in found:
                full = os.path.join(folder, name)
                path = os.path.relpath(full, crates)
                if path not in paths and name != BY_HAND:
                    os.remove(full)
                    removed.append(path)
            if not os.listdir(folder):
                os.rmdir(folder)
    return removed


def write(root):
    paths = files()
    for path, text in paths.items():
        full = os.path.join(root, 'crates', path)
        os.makedirs(os.path.dirname(full), exist_ok=True)
        with open(full, 'w') as f:
            f.write(text)
    removed = remove_left(root, paths)
    lay_out(root, CRATES)
    return removed


def check():
    with tempfile.TemporaryDirectory() as fresh:
        for crate in CRATES:
            shutil.copytree(os.path.join(ROOT, 'crates', crate), os.path.join(fresh, 'crates', crate),
                            ignore=shutil.ignore_patterns('out'))
        with open(os.path.join(fresh, 'crates.txt'), 'w') as f:
            f.write(''.join(f'{crate}:\n' for crate in CRATES))
        write(fresh)
        other = ''
        for crate in CRATES:
            said = subprocess.run(['diff', '-r', '-x', 'out', os.path.join(ROOT, 'crates', crate), os.path.join(fresh, 'crates', crate)],
                                  capture_output=True, text=True)
            other += said.stdout
    if other:
        print(other)
        sys.exit('catalogue: the files above are not as catalogue/write.py writes them')
    print('catalogue: all files are as written')


if __name__ == '__main__':
    if sys.argv[1:] == ['--check']:
        check()
    elif sys.argv[1:]:
        sys.exit(__doc__)
    else:
        for path in write(ROOT):
            print(f'removed crates/{path}')
