#!/usr/bin/env python3
"""Spells the repository's own definitions and lemmas as the library spells its words: snake case in place of a capital inside a word.

    python3 tools/respell.py [FOLDER]      in the repository that stands in FOLDER, or in this one

It was run once, after the kit's own script had turned the rest. Only definitions, lemmas, ghost members and the variables of clauses
have such names: functions, types, modules and variants keep theirs, and so do strings and comments. It stops before it writes
anything if two names would fall together in one file.
"""
import os
import re
import sys

# the words with a capital inside, as they stood
WORDS = set("""
    afterWord aggressorAfter aheadOn allowedIn answerShown asCarrier asRemoval atPrice atZero badSizes begunAt begunBoard bestOf betterOn bidAfter
    bidAhead bidEntry bidLeft bidNumber bidRank boardAfter boardOf boardTests boardWith bodyIn bookNumber callerOf cancelIn cancelRefusal cancelledBoard
    cancelledState causeByte causeIn causeNumber causeOf changeIn changeOf changeRefusal changeTests changeWith changedBoard changedState claimedBoard
    classNumber codedRecord completionNow completionsAfter consIf digitOf displayedBy displayedOf drawnFrom dueBy earnedBy endAhead endNumber endTime
    endedIn endingAt endingBy endsBy endsSooner enterAs enteredBoard enteredState entitledIn entitlementOf entriesOf entryAnswer entryIn entryPrice
    entryRefusal entryTests entryWith eqZ favouredBy fieldBytes fillIn fillOf fillPrice fillWith filledBoard filledSooner firstCompletion firstEntitled
    firstFill firstOfChange firstOfEntry firstPriority forfeitedBoard fourDraws freedBy freedTo heardLine hiddenAfter inBytes inOrder inPart inRolling
    inSession inTimed incomingOf isAccepted isBid isFbs isM isOffer isOpen isPrice isSize isTrader lastOn lastOrder lastTime lastWrite lastWritten layerOf
    lessOrder lineFull lineIn lostAt lostBy lotOf lowerZ meantOf messageByte messageNumber mostOrders mostWrites mustGo nineBids noEntries numeralOf
    ofTrader offerAfter offerAhead offerEntry offerLeft offerNumber offerRank openingOf openingWith opensIn orNext orderAfter ordersAfter ordersFirst
    outputIn outputOf ownMeets passiveFor phaseAfter phaseEnd plainAnswer positionFrom priceIn priceOf priorLeft priorityOne priorityTwo privilegesAfter
    privilegesIn putAnswer readingBy recordFields recordKind recordOf recordShown referenceIn referenceOf refusedIf remainderOf removalDue removalIn
    removedBoard reserveAfter reserveAt reserveIsSize reserveOf restedBoard roomAnswer roomOf secondPriority secondSession sessionAfter sessionWith
    settledBoard settledSession shownAt sideByte someIf stampAfter standingIn struckBoard summaryAt summaryOf summaryShown takeAnswer takenAt takenBy
    takesStamp tenYears tickIn tickRefusal tickedBoard toldAfter toldBefore toldOf tradedOut turnRecord turnedBoard turnsIn turnsLeft typeByte typeIn
    usedUp valueIn verbOf withBoard withCause withClock withEnd withEntry withOrders withPrivileges withTime workUp workedUp wouldMeet writesFirst
    writingCall
""".split())

# a lemma that would have the name of the definition that it speaks of keeps the dash between its two parts
APART = {'own_meets': 'own-meets'}

TOKEN = re.compile(r"(?<![\w'])[A-Za-z_][\w']*(?:-[\w']+)*")
# what is passed over: comments, strings and characters
SKIPPED = {'.rt': re.compile(r'//[^\n]*|"(?:\\.|[^"\\])*"'), '.antt': re.compile(r'(?<![^\s(){}])--[^\n]*|"(?:\\.|[^"\\])*"'), '.edit': re.compile(r'^file:.*$', re.M)}


def respelled(token):
    if token in APART:
        return APART[token]
    return '-'.join(re.sub(r'([a-z0-9])([A-Z])', r'\1_\2', p).lower() if p in WORDS else p for p in token.split('-'))


def turned(text, skipped):
    """The text with each word turned, and the words that were turned."""
    out, at, seen = [], 0, {}
    for m in list(skipped.finditer(text)) + [None]:
        end = m.start() if m else len(text)

        def one(t):
            new = respelled(t.group())
            if new != t.group():
                seen[t.group()] = new
            return new

        out.append(TOKEN.sub(one, text[at:end]))
        if m:
            out.append(m.group())
            at = m.end()
    return ''.join(out), seen


def files(root):
    for folder, folders, names in os.walk(os.path.join(root, 'crates')):
        folders[:] = sorted(d for d in folders if d != 'out')
        for n in sorted(names):
            kind = os.path.splitext(n)[1]
            if kind in SKIPPED:
                yield os.path.join(folder, n), kind


def main(argv):
    root = argv[0] if argv else os.path.dirname(os.path.dirname(os.path.abspath(__file__)))
    made, together = [], []
    for path, kind in files(root):
        with open(path, encoding='utf-8') as f:
            text = f.read()
        new, seen = turned(text, SKIPPED[kind])
        if kind == '.antt':
            there = set(TOKEN.findall(SKIPPED[kind].sub('', text))) - set(APART)
            together += ['%s: %s and %s' % (path, a, b) for a, b in seen.items() if b in there]
        if new != text:
            made.append((path, new))
    for line in together:
        print('together: ' + line)
    for path, new in made:
        with open(path, 'w', encoding='utf-8') as f:
            f.write(new)
    print('respell: %d files, %d places to look at' % (len(made), len(together)))


if __name__ == '__main__':
    main(sys.argv[1:])
