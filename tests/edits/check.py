"""What refuses each must-fail edit: a fact that fails, as far as rt's own words tell.

usage: check.py LOG     LOG is what `rt ci` or `rt must-fail` printed

rt prints a line for each edit, also for one that it has kept from an earlier run: 'rt: must-fail CRATE/NAME.edit: ' and what the try came to,
for a refusal with the first 160 characters of its reason. An edit fails here that has no such line, or is not refused, or does not read or
apply, or was not tried, or is refused by a limit of the prover, for no stated reason, or only because a name is gone. Then the reason is a
name that is not in scope, or a goal that bears a name of the edit's own: the answer to that goal stands under the old name and was not read.

Not seen here: a goal that an edit renames by another number or comparison, as `gt4096` to `gt4097`. Such an edit passes even if it means what the
program means. The table of edits in docs/PORT.md says what a trial by hand found of each that stood then.
"""
import glob
import os
import re
import sys

LOG = os.path.abspath(sys.argv[1])
os.chdir(os.path.join(os.path.dirname(os.path.abspath(__file__)), '..', '..'))
REFUSED = 'refused, as it must be'
# the last: rt cuts, and reads, a message at its first line's end, and 'record `..' goes on 'has no field' in the next one
NAME_GONE = re.compile(r'that can be named from here|is not in scope|has no field|has no `|was not admitted|\berror\[|: (record|module) `')
WORD = r'[A-Za-z_]\w*'
passed = 0
wrong = []


def judge(said, goal_names=()):
    """None for a refusal that shows something, else why it shows nothing. goal_names: names that the edit alone brings in."""
    if said is None:
        return 'rt said nothing of it'
    if not said.startswith(REFUSED):
        return said
    reason = said[len(REFUSED):]
    if not reason.startswith(': ') or not reason[2:].strip():
        return 'hollow: refused' + (reason or ' for no stated reason')
    if NAME_GONE.search(reason):
        return 'hollow' + reason
    goal = re.search(r'it is not proved that .*\(`([^`]+)`\)', reason)
    own = [word for word in re.findall(WORD, goal[1]) if word in goal_names] if goal else []
    return 'hollow: its goal bears the name %s, which the edit brings in%s' % (own[0], reason) if own else None


def new_names(crate, edit):
    """The names of an edit's new texts that stand nowhere in the file that it changes."""
    names, there = set(), ''
    for line in open(edit):
        if line.startswith('file: '):
            path = os.path.join('crates', crate, line[len('file: '):].strip())
            there = open(path).read() if os.path.isfile(path) else ''
        elif line.startswith('new:'):
            names |= set(re.findall(WORD, line[len('new:'):])) - set(re.findall(WORD, there))
    return names


# What rt printed of edits that were planted: judge finds each that shows nothing.
PLANTED = (
    (True, 'refused, as it must be: ./proofs/Laws.antt:88:23: error: `passed-rise`: as printed, the two types differ', ()),
    (True, 'refused, as it must be: note: src/position.rt:58:9: it is not proved that what the function ensures holds when it returns '
           '(`returns-then-a`); the facts known there allow values at whic', ()),
    (False, None, ()),
    (False, 'NOT REFUSED: the crate is still proved with this edit (one that means the same as before cannot be refused: remove it)', ()),
    (False, 'BAD EDIT: it did not reach the prover; the first lines of what it said:', ()),
    (False, 'NOT TRIED: its check was killed, most likely for memory, so nothing is known of it: run this again', ()),
    (False, 'refused, as it must be', ()),
    (False, 'refused, as it must be (only by a limit of the prover, which gave no verdict, so this says less of the contract): x', ()),
    (False, 'refused, as it must be (only because a proof file names what the edit took away, so this says little of the contract: change a '
            'value and keep the names): ./proofs/pattern/whole/Invariants.antt:14:69: error: `invariant-loop-i`: record `..` has no field `total`', ()),
    (False, 'refused, as it must be: ./proofs/set/Answers.antt:9:1: error: module `Goals` has no `returns-2` that can be named from here', ()),
    (False, 'refused, as it must be: ./proofs/strings/start_string/Answers.antt:15:26: error: `returns-then-reply-ne0-clause-number`: record '
            '`Rattle.player.proofs.strings.start_string.Lts.View.In-T', ()),
    (False, 'refused, as it must be: note: src/set.rt:119:13: it is not proved that what the function ensures holds when it returns '
            '(`returns-then-found-ne0`)', ('found',)),
)
for shows, said, names in PLANTED:
    if (judge(said, names) is None) == shows:
        passed += 1
    else:
        wrong.append('planted, and judged wrongly: %s' % said)

told = {}
for line in open(LOG, errors='replace'):
    found = re.match(r'rt: must-fail (\w+)/([\w.-]+\.edit): ?(.*)', line)
    if found:
        told[found[1], found[2]] = found[3]
edits = sorted(glob.glob('crates/*/must-fail/*.edit'))
if not edits:
    wrong.append('there is no must-fail edit')
for edit in edits:
    crate = edit.split('/')[1]
    why = judge(told.get((crate, os.path.basename(edit))), new_names(crate, edit))
    if why:
        wrong.append('%s: %s' % (edit, why))
    else:
        passed += 1

for words in wrong:
    print(words)
print('%d passed, %d failed' % (passed, len(wrong)))
sys.exit(1 if wrong else 0)
