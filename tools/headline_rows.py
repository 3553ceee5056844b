"""What docs/HEADLINE.md says beside the sources, for tools/headline: the sentences, each with how its clauses carry it, and these by file, call and
name; the groups of definitions, bottom-up, with their files; the words that stay closed, each with the reason; and the page around all that.

A call without a function is a trait or an impl, and its words are named. A file of src/ that is in no group is in the first."""

SENTENCES = [
    ('Every accepted command hands back an inverse, and the inverse restores the whole book.', '''
`apply` accepts a command only where the list does, and hands back the inverse that the list gives. It keeps what `revert` requires. `revert` makes
the list `before`, and by the law that is the list as it was before the command. A desk runs a `BoxedCommand`, which is any command, a withdrawal
too. `Command` has the same meaning, and each kind of command obeys the law by itself.
''', '''
    blot_command/undoable.rt        Undoable::apply             accepted kept
    blot_command/undoable.rt        Undoable::revert            list command
    blot_command/undoable.rt        Undoable                    meaning lawful
    blot_command/boxed_command.rt   Undoable for BoxedCommand   State Inverse Refusal meaning
'''),
    ('Undoing any number of steps, newest first, gives the book as it was before them.', '''
By `lead` each done step led from the list before it to the list after it, so `past` is the list of so many steps ago. By `undos` that many undos lead
back to it. A desk undoes where `Held::step` gets the event Undo (sentence 4), by `Steps::undo`.
''', '''
    blot_desk/held.rt               Held::history               lead undos
    blot_undo/steps.rt              Steps::undo                 book number
'''),
    ('Redoing them gives the book as it was after them.', '''
As many redos as undos give the same book again: its list, its steps and its next number.
''', '''
    blot_desk/held.rt               Held::history               redos
    blot_undo/steps.rt              Steps::redo                 book number
'''),
    ('After any commands, orders show the surviving executions as last corrected.', '''
A desk's book is that of its recorded events, run from the empty book. Each answer about an order is the line by that run's list. The snapshot that an
operator's report is made of is that list, and so is the book that the day's report is made of. `Tables::order` gives the line by the list of its tables.
''', '''
    blot_desk/held.rt               Held::step                  reply taken order
    blot_desk/held.rt               Held::history               run
    blot_desk/held.rt               Held::snapshot              run
    blot_desk/held.rt               Held::into_book             run
    blot_command/tables.rt          Tables::order               line
'''),
    ('After any commands, positions show the surviving executions and the live allocations.', '''
As with orders.
''', '''
    blot_desk/held.rt               Held::step                  position
    blot_command/tables.rt          Tables::position            line
'''),
    ('Any command of the book can be withdrawn from the middle of the day if the others remain valid; a bust always can. Undo puts it back in its place.', '''
A withdrawal is a command too (sentence 1), and `after` it the list is `without` the entry. It is accepted if no later entry needs the one withdrawn. By
`withdrawn` that is so exactly where the list without it is a book, by `bust` nothing needs a bust, and by `back` an entry that is put back stands where
it stood.
''', '''
    blot_command/withdrawing.rt     withdraw                    accepted entry refused back
    blot_withdraw/blocking.rt       blocked_by                  blocked bust withdrawn
'''),
    ('What was told outlives a crash. A crash at any moment keeps the day\'s first events, all durable ones among them; the next start runs exactly those; '
     'and nothing is told before it is durable.', '''
The events of a desk's history, asks aside, are those of its diary (`close_kept`), and a diary keeps them as the text of a file. `FileDevice` says what a
crash may leave of that file; that the disk does so is a premise, and not proved. Between calls it leaves a beginning of the events with all durable
ones (`Keeper::ever`). Within a sync it leaves the text from before with all that waits, or with none of it (`Journal::sync`). Where `serve_kept_day`
ends well every event is durable, and a crash at any moment of it would have left a beginning. `open_day` runs the events of the file that it finds. Before
each read and write of a broker's wire (`StoredWire`, `PeerStore`) and each write to an operator (`write_durable`), a sync has answered that every event is
durable, or nothing is read or written.
''', '''
    blot_desk/desk.rt               Desk::close_kept            kept
    blot_diary/diary.rt             Keeper for Diary            IsKept events durable leaves
    blot_journal/file.rt            Device for FileDevice       seen may_leave moment left_since
    blot_desk/keeper.rt             Keeper::ever                now
    blot_journal/journal.rt         Journal::sync               crash any_moment
    blotter/kept_day.rt             serve_kept_day              durable now ever
    blot_recovery/opening.rt        open_day                    events run
    blot_gateway/stored_wire.rt     Wire for StoredWire         does
    blot_lanes/peer_store.rt        MessageStore for PeerStore  keeps
    blot_operator/durable.rt        write_durable               durable untouched
'''),
    ('A busted trade that no allocation names leaves orders and positions as if it had never come.', '''
By `allowed` the chain is busted, and no allocation, live or ended, lists an execution of it. The list without the chain is a book then, and each order and
each position by it is that by the whole list.
''', '''
    blot_withdraw/erasure.rt        erase_check                 allowed rest book none_kept orders positions
'''),
]

GROUPS = [
    ('Types', ''),
    ('Keys and chains', 'blot_types/Keys blot_types/Chains'),
    ('Survivors', 'blot_types/Survivors'),
    ('The order line', 'blot_types/Order'),
    ('Allocations', 'blot_types/Instructions blot_types/Allocations'),
    ('Positions', 'blot_types/Position'),
    ('Refusals', 'blot_types/Refusals'),
    ('The book', 'blot_types/Legal'),
    ('Withdrawal', 'blot_types/Withdrawal'),
    ('After and before', 'blot_command/Book blot_command/tables.rt'),
    ('The law', 'blot_command/Undoable blot_command/undoable.rt blot_command/Meanings'),
    ('Steps', 'blot_undo/Book blot_undo/steps.rt blot_undo/Laws'),
    ('The run of a day', 'blot_desk/Desk blot_desk/held.rt'),
    ('Erasure', 'blot_withdraw/Erasure'),
    ('What a crash leaves', '''blot_journal/device.rt blot_journal/Device blot_journal/Calls blot_journal/file.rt blot_journal/File blot_journal/Journal
                               blot_journal/journal.rt'''),
    ('What is kept', '''blot_desk/Keeping blot_desk/keeper.rt blot_desk/closed.rt blot_desk/opening.rt blot_recovery/recovering.rt blot_diary/Diary
                        blot_diary/diary.rt'''),
    ('What is told', 'blot_gateway/Counting blot_gateway/Wires blot_gateway/wire.rt blot_gateway/Storing blot_gateway/stored_wire.rt blot_lanes/Storing blot_lanes/peer_store.rt'),
]

CLOSED = {
    'blot_command/Meanings KeepsFor': 'what a book keeps beside its list so that an inverse works. `apply` promises it and `revert` requires it, so '
                                      'sentence 1 is the same whatever it says.',
    'blot_command/Meanings StaysFor': 'what of that stays untouched. No sentence uses it.',
    'blot_journal/File text_of': 'the text of a file, and `desk_events`, the events of a text. They stand on both sides: what a desk has kept are the '
                                 'events of its text, a crash leaves a file with the first of the events of that text, and the next start runs the '
                                 'events of the text of that file. So sentence 7 is the same whatever they say.',
    'blot_diary/Diary desk_events': 'likewise.',
    'blot_journal/File IsWhole': 'that a file has its text to the end. No sentence uses it.',
    'blot_gateway/Counting CountsItself': 'that a message which is put brings no event, and what it says of sequence numbers. No sentence uses it.',
}

AROUND = '''# The headline, and what it rests on

`tools/headline` makes this page from the sources, and the gate fails where it isn't theirs. Don't edit it: what it says beside the sources stands in
`tools/headline_rows.py`.

The prover checks that the code keeps each clause below. It can't check that the definitions in a clause mean what you take them to mean: those an auditor
has to read and believe. They are **{definitions} definitions, {lines} lines** without comments. First come the eight sentences of the headline with the
clauses that carry them, and then the definitions, each after those that it uses.

| Group | Definitions | Lines | With a row |
|---|---|---|---|
{table}

**How to read a clause.** `requires` is up to the caller, and `ensures` holds after the call. Clauses that the sentence doesn't need are left out. `x.old`
and `x.new` are a `&mut` argument before and after the call, `x.now` is what a reference points to, and `result` is the answer. `OnOk result P` means P if
the answer is Ok; `IfOk result (λ x. P)` means the same and calls the answer x; `OnErr` and `IfErr` are of errors. `(x : A) → P` is P for each x,
`(x : A) × P` some x with P, `P → Q` if P then Q, `P × Q` both, `P ⊎ Q` one of the two, `⊥` never, and `Unit` always.

**How to read a definition.** `name : A → B → C` tells what it takes and what it gives. Each line below that is a case, and the first that fits counts. A
record of facts says that all of them hold. Types are as in the code, without `derive`. `pub struct Text64 {{ .. }} // seen as List ℕ` has private fields,
and a contract sees a list of numbers. Of a trait, and of a struct that only a clause names, the parts stand here that are named. `blot_types/Chains` is
the file `crates/blot_types/specs/Chains.antt`, and `blot_types/keys.rt` is `crates/blot_types/src/keys.rt`.

**Rows.** A line `-- row of` is no part of a definition. It is a theorem of that file of `crates/`, on a worked day, that the prover found true by computing
both sides; "The worked days" has the days. {functions} definitions compute a value; {bare} of them have no row. A few others have one too.

**Closed.** Of these definitions only the first line stands here, since no sentence depends on what they say:

{closed}

## The sentences

{sentences}

## The definitions

{defined}

## The worked days

{days}

## The words of the standard library

The page stands on these words of the toolchain's own library, which it doesn't show: {std}.
'''
