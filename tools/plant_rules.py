#!/usr/bin/env python3
"""Plants bugs in the definitions of the rules, one at a time, and tells which theorem refuses each.

    python3 tools/plant_rules.py            all bugs
    python3 tools/plant_rules.py 3 17       these bugs only

Each bug is a replacement of text in crates/rules/specs, made in a copy of the repository. The copy is checked twice: the rules with
their examples, and then, with the examples left out, the crates above the rules. An example refuses a bug by computation. A law refuses
it where its proof no longer goes through; where that is a lemma of the rules on which the laws rest, the lemma is named.
What was found is written into the section "In the rules" of docs/PLANTED.md.
"""
import os
import re
import shutil
import subprocess
import sys
import tempfile

ROOT = os.path.dirname(os.path.dirname(os.path.abspath(__file__)))
ABOVE = ['laws', 'invariants']

# what goes wrong, the file, the text, what stands in its place
BUGS = [
    # ---- prices
    ('an offer is better if higher', 'Board', 'better_on Offer p q = int_lt p q', 'better_on Offer p q = int_lt q p'),
    ('prices meet only if the bid is above the offer', 'Board', 'cross (Some b) (Some a) = int_le a b', 'cross (Some b) (Some a) = int_lt a b'),
    # ---- entitlement
    ('while prior orders are left, all at the price are entitled', 'Entitlement',
     'passively true s o = o.prior', 'passively true s o = at_price s o'),
    ('after the prior orders, anybody at the price is entitled', 'Entitlement',
     'passively false s o = at_price s o && o.trader == s.owner', 'passively false s o = at_price s o'),
    ('the Aggressive Owner has no privilege', 'Entitlement',
     'aggressively (Some t) s o = at_price s o && o.trader == t', 'aggressively (Some t) s o = at_price s o'),
    ('in Rolling only the owners are entitled', 'Entitlement',
     'entitled_in Rolling b o = at_price b.session o', 'entitled_in Rolling b o = in_timed (same o.side b.session.passive) b o'),
    ('in the FBS Period orders trade though prices do not meet', 'Entitlement',
     'entitled_in Fbs b o = meet b.orders && is_at', 'entitled_in Fbs b o = is_at'),
    ('the pair is not the first by rank, but by order number', 'Entitlement',
     'first_entitled b s = first (entitled b s) (ahead b) b.orders', 'first_entitled b s = first (entitled b s) (λ o p. false) b.orders'),
    # ---- ranks
    ('the Last Buyer has no class of his own', 'Standings',
     'cond (names (last_on o.side buyer seller) o.trader)', 'cond (names None o.trader)'),
    ('the Last Seller is favoured among the bids', 'Standings', 'last_on Bid buyer seller = buyer', 'last_on Bid buyer seller = seller'),
    ('Priority 2 ranks with Priority 1', 'Standings',
     'privileged SecondPriority earned = Second (record { 0 = earned })', 'privileged SecondPriority earned = First earned'),
    ('classes last beyond the FBS Period', 'Standings',
     'standing_in Open buyer seller ps o = plain o',
     'standing_in Open buyer seller ps o =\n    cond (names (last_on o.side buyer seller) o.trader) (Last o.stamp) (plain o)'),
    # ---- the beginning of a session
    ('a fill in the FBS Period begins a session', 'Draws', 'only_if (is_open b.phase && meet b.orders)',
     'only_if (not (in_session b.phase) && meet b.orders)'),
    ('the trigger keeps its own price', 'Draws', 'price = cond (numbered trigger o) p o.price;', 'price = o.price;'),
    ('all orders of the passive side are prior', 'Draws', 'prior = on passive o && eq_z o.price p;', 'prior = on passive o;'),
    ('the trigger owns the passive side', 'Draws', 'owner = passive.trader;', 'owner = trigger.trader;'),
    ('fills of an earlier session count', 'Draws', 'first = None;\n      prior', 'first = o.first;\n      prior'),
    ('the Aggressive Owner of an earlier session stays', 'Draws', 'aggressor = None;\n        settled', 'aggressor = b.session.aggressor;\n        settled'),
    # ---- fills
    ('a fill is of the larger displayed size', 'Fills',
     'size_of bid offer = min bid.displayed offer.displayed', 'size_of bid offer = bid.displayed + offer.displayed - min bid.displayed offer.displayed'),
    ('a restock brings the shown size, whatever the reserve', 'Fills', '(drawing (min shown reserve)) stays', '(drawing shown) stays'),
    ('a restock brings the whole reserve', 'Fills', '(drawing (min shown reserve)) stays', '(drawing reserve) stays'),
    ('a large reserve is not drawn on', 'Fills',
     '(drawing (min shown reserve)) stays', '(drawing (cond ((reserve - 10000) == 0) (min shown reserve) 0)) stays'),
    ('an order is restocked before it is used up', 'Fills',
     'remainder left shown reserve = cond (left == 0)', 'remainder left shown reserve = cond ((left - 50) == 0)'),
    ('a restock takes nothing from the reserve', 'Fills', 'drawn (restocks m) = m', 'drawn (restocks m) = 0'),
    ('a restocked order keeps its stamp', 'Fills', 'stamp = stamp;\n      filled', 'stamp = o.stamp;\n      filled'),
    ('a restocked order stays prior', 'Fills', 'first = o.first;\n      prior = false;', 'first = o.first;\n      prior = o.prior;'),
    ('the earned number is that of the last fill', 'Fills', 'first_fill session n (Some k) = Some k', 'first_fill session n (Some k) = Some n'),
    ('the earned number is when the order joined the queue', 'Fills',
     'first = first_fill session n o.first;', 'first = first_fill session o.stamp o.first;'),
    ('the Aggressive Owner may come after the first quiet', 'Fills',
     'cond (not s.settled && not priors)', 'cond (not priors)'),
    ('there is never an Aggressive Owner', 'Fills', '(Some s.trigger) s.aggressor', 's.aggressor s.aggressor'),
    ('a fill in the FBS Period moves the Last Buyer', 'Fills',
     'buyer = cond (in_session phase) (Some bid.trader) s.buyer;', 'buyer = Some bid.trader;'),
    ('a fill outside a session is at the price of the incoming order', 'Fills',
     'offer.price bid.price', 'bid.price offer.price'),
    ('an order that was filled whole frees its Priority 1', 'Fills',
     'privileges_after leaves o ps = adjust (lost o.number)',
     'privileges_after leaves o ps = adjust (Rattle.rules.specs.Privileges.freed o.number)'),
    # ---- privileges
    ('the last completed order earns Priority 2', 'Privileges', 'first_completion (Some d) t s c cs = cs', 'first_completion (Some d) t s c cs = place t s c cs'),
    ('any order of the trader carries Priority 2', 'Privileges',
     'of_trader t s o && nat_le c.number o.number', 'of_trader t s o'),
    ('the latest fill earns Priority 1', 'Privileges', 'filled_sooner o p = sooner o.first p.first', 'filled_sooner o p = sooner p.first o.first'),
    ('who was filled whole and in part has Priority 2', 'Privileges',
     'earned_by (Some o) c t s os = first_priority o.first o',
     'earned_by (Some o) None t s os = first_priority o.first o\nearned_by (Some o) (Some c) t s os = second_priority (Some c) t s os'),
    ('a Priority 1 is gone with its order', 'Privileges', 'freed_to First = Free', 'freed_to First = Gone'),
    ('a Priority 2 is free again', 'Privileges', 'freed_to Second = Gone', 'freed_to Second = Free'),
    ('a later entry takes the privilege over', 'Privileges', 'taken_by n (By m) p = p', 'taken_by n (By m) p = held (By n) p'),
    ('a better entry takes the privilege', 'Calls',
     'taken_at (is_fbs b.phase && not (better e.side p b.session.price))', 'taken_at (is_fbs b.phase)'),
    ('an order that is re-priced better keeps its privilege', 'Calls',
     'lost_at (is_fbs b.phase && better o.side c.price b.session.price)', 'lost_at false'),
    ('a cancel frees no privilege', 'Calls',
     'privileges = adjust (freed o.number) o.trader o.side b.privileges;', 'privileges = b.privileges;'),
    ('a removal frees no privilege', 'Draws',
     'privileges = adjust (freed o.number) o.trader o.side b.privileges;', 'privileges = b.privileges;'),
    ('privileges outlast the FBS Period', 'Draws', 'privileges_in Fbs b = empty', 'privileges_in Fbs b = b.privileges'),
    # ---- removals and times
    ('a FaK order goes in the session', 'Draws', 'must_go session FaK filled = filled && not session', 'must_go session FaK filled = filled'),
    ('a FaK order that was never filled goes', 'Draws', 'must_go session FaK filled = filled && not session', 'must_go session FaK filled = not session'),
    ('a FaKI order stays in a session', 'Draws', 'must_go session FaKI filled = true', 'must_go session FaKI filled = not session'),
    ('removals go before fills', 'Draws',
     'or_else (pairing b) (or_else (removing b) (or_else (coming k b) rests))', 'or_else (removing b) (or_else (pairing b) (or_else (coming k b) rests))'),
    ('time goes on before fills', 'Draws',
     'or_else (pairing b) (or_else (removing b) (or_else (coming k b) rests))', 'or_else (coming k b) (or_else (pairing b) (or_else (removing b) rests))'),
    ('one fill, and then the tape feigns quiet', 'Draws',
     'or_else (pairing b) (or_else', 'or_else (only_if (not b.session.settled) (pairing b)) (or_else'),
    ('Rolling gets a full period from its beginning', 'Draws',
     'Some (max c.since (c.last + s.rolling))', 'Some (c.since + s.rolling)'),
    ('Rolling ends in the past', 'Draws', 'Some (max c.since (c.last + s.rolling))', 'Some (c.last + s.rolling)'),
    ('the FBS Period lasts as long as Timed', 'Draws', 'phase_end Fbs s c = Some (c.since + s.fbs)', 'phase_end Fbs s c = Some (c.since + s.timed)'),
    ('a phase starts when the session began', 'Draws', 'since = t;\n      last', 'since = s.since;\n      last'),
    ('an end time goes before a phase\'s end', 'Draws', 'cond (nat_le t x.1) (turns t)', 'cond (nat_lt t x.1) (turns t)'),
    ('an order outlives its end time', 'Draws', 'ends_by t (Some e) = nat_le e t', 'ends_by t (Some e) = nat_lt e t'),
    ('of two that end at once the higher number goes', 'Draws', 'before (Some a) (Some b) = nat_lt a b', 'before (Some a) (Some b) = nat_le a b'),
    ('quiet tells the time before', 'Draws', 'record_of h b rests = Quiet b.clock.wished', 'record_of h b rests = Quiet b.clock.time'),
    # ---- changes and entries
    ('a change is larger if above the shown size', 'Calls', 'nat_lt o.displayed c.displayed', 'nat_lt o.shown c.displayed'),
    ('a smaller displayed size takes a new stamp', 'Calls', 'nat_lt o.displayed c.displayed', 'nat_lt o.displayed c.displayed || nat_lt c.displayed o.displayed'),
    ('a change with a new stamp stays prior', 'Calls', 'prior = not anew && o.prior;', 'prior = o.prior;'),
    ('a change undoes a fill in part', 'Calls', 'filled = o.filled;\n      first = o.first;', 'filled = false;\n      first = o.first;'),
    ('a change leaves the shown size', 'Calls', 'shown = c.displayed;', 'shown = o.shown;'),
    ('a change is not incoming', 'Calls', 'incoming = Some o.number;', 'incoming = b.counters.incoming;'),
    ('a better entry in a session keeps its price', 'Refusing', 'cond (in_session b.phase && better s p b.session.price) b.session.price p', 'p'),
    # ---- refusals
    ('prices that are equal do not meet one\'s own', 'Refusing', 'would_meet Bid p q = int_le q p', 'would_meet Bid p q = not (int_le p q)'),
    ('one\'s own order is met at the price written', 'Refusing',
     '(entry_price b e.side e.price), Book Own)', 'e.price, Book Own)'),
    ('a size may exceed the largest', 'Refusing', '&& nat_le n 1000000', '&& nat_le n 2000000'),
    ('an end time may be the present', 'Refusing', 'untimely time (Some t) = nat_le t time ||', 'untimely time (Some t) = nat_lt t time ||'),
    ('a tick may not be to the present', 'Refusing', '(nat_lt t b.clock.time || nat_lt last_time t, Book Time)', '(nat_le t b.clock.time || nat_lt last_time t, Book Time)'),
    ('the end line may overflow', 'Refusing', ' || (is_some end && nat_le k.ends (count ending os))', ''),
    ('a price is checked before the trader', 'Refusing',
     '(not (is_trader e.trader), Book Trader) ∷\n    (not (is_price e.price), Book Price) ∷',
     '(not (is_price e.price), Book Price) ∷\n    (not (is_trader e.trader), Book Trader) ∷'),
    ('a better change in a session is accepted', 'Refusing',
     '    (in_session b.phase && better o.side c.price b.session.price, Book Better) ∷\n', ''),
    ('the answer tells the reserve', 'Calls', '(Entered S.board.counters.number)', '(Entered (S.board.counters.number + e.reserve))'),
    # ---- summaries
    ('the summary counts seven orders', 'Summaries', 'total 8 b s p', 'total 7 b s p'),
    ('the summary counts all prices', 'Summaries', 'on s o && eq_z o.price p', 'on s o'),
]

SPECS = 'crates/rules/specs/%s.antt'


def read(path):
    with open(path, encoding='utf-8') as f:
        return f.read()


def write(path, text):
    with open(path, 'w', encoding='utf-8') as f:
        f.write(text)


def check(root, crate):
    """What a check prints, and whether the crate is proved."""
    run = subprocess.run(['rt', 'check'], cwd=os.path.join(root, 'crates', crate), stdout=subprocess.PIPE, stderr=subprocess.STDOUT, text=True)
    return run.stdout, run.returncode == 0 and 'logic=not-proved' not in run.stdout


def examples_refusing(root, out):
    """The names of the examples that a check refutes, by the line of each in proofs/Worked.antt."""
    lines = read(os.path.join(root, 'crates/rules/proofs/Worked.antt')).split('\n')
    names = []
    for m in re.finditer(r'Worked\.antt:(\d+):\d+: error', out):
        at = int(m.group(1)) - 1
        field = re.match(r'\s+(\w+) = refl;', lines[at])
        group = [g.group(1) for g in (re.match(r'(\w+) =$', line) for line in lines[:at]) if g][-1:]
        if field and group:
            name = (group[0] + '.' if group[0] != 'examples' else '') + field.group(1)
            names += [name] if name not in names else []
    return names


def laws_refusing(out, crate):
    """The functions whose contract is not proved in a check of `crate`, and the lemma at which a proof breaks."""
    laws = [m.split('::')[1] for m in re.findall(r'^fn (\S+): (?:not proved|no proof)', out, re.M)]
    below = re.search(r'^rt: the library (\w+) did not build', out, re.M)
    broken = re.findall(r'^\./proofs/(\S+?)\.antt:\d+:\d+: error: `(\S+?)`', out, re.M)
    lemma = ['lemma %s of %s' % (name, below[1] if below else crate) for path, name in broken if not path.endswith('Answers')][:1]
    return laws, lemma


def without_examples(root):
    """Leaves out the examples and their proof."""
    rules = os.path.join(root, 'crates/rules')
    shutil.rmtree(os.path.join(rules, 'proofs/examples_hold'))
    os.remove(os.path.join(rules, 'proofs/Worked.antt'))
    lib = os.path.join(rules, 'proofs/Lib.antt')
    write(lib, read(lib).replace('pub mod Worked\n', ''))
    src = os.path.join(rules, 'src/lib.rt')
    write(src, re.sub(r'\n    ensures \{ [^\n]*Examples[^\n]*\n', '\n', read(src)))


def copy(name, trim):
    root = os.path.join(tempfile.gettempdir(), name)
    shutil.rmtree(root, ignore_errors=True)
    shutil.copytree(ROOT, root, ignore=shutil.ignore_patterns('.git', 'out'))
    if trim:
        without_examples(root)
    return root


def plant(root, bug):
    """Puts the bug in, and answers how to take it out."""
    what, name, old, new = bug
    path = os.path.join(root, SPECS % name)
    text = read(path)
    if text.count(old) != 1:
        sys.exit('%s: its text stands %d times in %s' % (what, text.count(old), name))
    write(path, text.replace(old, new))
    return lambda: write(path, text)


def refusals(full, bare, crates, bug):
    take_out = plant(full, bug)
    out, ok = check(full, 'rules')
    take_out()
    found = ['example ' + n for n in examples_refusing(full, out)]
    if not ok and not found:
        found = laws_refusing(out, 'rules')[1] or ['NO PROOF: ' + ' '.join(re.findall(r'error: .{0,120}', out)[:1])]
    take_out = plant(bare, bug)
    for crate in crates:
        out, ok = check(bare, crate)
        if not ok:
            laws, lemma = laws_refusing(out, crate)
            found += [x for x in laws + lemma if x not in found]
    take_out()
    return found


def main():
    chosen = [int(a) for a in sys.argv[1:]] or list(range(1, len(BUGS) + 1))
    crates = [c for c in ABOVE if os.path.isdir(os.path.join(ROOT, 'crates', c))]
    full, bare = copy('planted-rules', False), copy('planted-laws', True)
    for crate in ['rules'] + crates:
        if not check(full, crate)[1] or not check(bare, crate)[1]:
            sys.exit('%s is not proved as it stands' % crate)
    rows = told()
    for i in chosen:
        bug = BUGS[i - 1]
        found = refusals(full, bare, crates, bug)
        rows[bug[0]] = listed(found)
        print('%d. %s: %s' % (i, bug[0], ', '.join(found) or 'NOTHING REFUSES IT'), flush=True)
        document(rows)
    for root in (full, bare):
        shutil.rmtree(root)


def listed(found):
    """The first of what refuses a bug."""
    examples = [f for f in found if f.startswith('example ')]
    rest = [f for f in found if f not in examples]
    if len(examples) > 3:
        examples = examples[:3] + ['%d more' % (len(examples) - 3)]
    return ', '.join(examples + rest) or 'nothing'


TITLE = '## In the rules\n'
PAPER = os.path.join(ROOT, 'docs/PLANTED.md')


def told():
    """What the document says of each bug."""
    text = read(PAPER) if os.path.exists(PAPER) else ''
    section = text.split(TITLE)[-1].split('\n## ')[0] if TITLE in text else ''
    return {m[0]: m[1] for m in re.findall(r'^\| (.*?) \| \w+ \| (.*?) \|$', section, re.M) if m[0] != 'Bug'}


def document(rows):
    text = read(PAPER) if os.path.exists(PAPER) else '# Planted bugs\n'
    section = [TITLE,
               'Each bug was planted in the definitions of the rules, alone, by `tools/plant_rules.py`. An example refuses it by',
               'computation; a law, or a lemma on which the laws rest, refuses it in that the proof no longer goes through.', '',
               '| Bug | In | Refused by |', '|---|---|---|']
    section += ['| %s | %s | %s |' % (bug[0], bug[1], rows[bug[0]]) for bug in BUGS if bug[0] in rows]
    block = '\n'.join(section) + '\n'
    if TITLE in text:
        text = re.sub(re.escape(TITLE) + r'.*?(?=\n## |\Z)', lambda m: block, text, flags=re.S)
    else:
        text = text.rstrip('\n') + '\n\n' + block
    write(PAPER, text)


if __name__ == '__main__':
    main()
