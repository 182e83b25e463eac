"""What docs/claim_page.py cannot read from the definitions: the layers of docs/CLAIM.md, its text, and a line for each name of the kit."""

# Each layer: its title, what it says, and its parts: a title, and the definitions (crate.file.name) that it is to reach.
LAYERS = [
    (
        "1. The fold of blocks over values",
        "What a chain of blocks does to tables: what a call reads and writes, what becomes of it, and the fold of all blocks. No file and"
        " no byte has a part here.",
        [
            ("Rows, tables, reads and writes", ["rel_base.Tables.set_write", "rel_base.Tables.rows", "rel_base.Late.late"]),
            ("What a call of a procedure does", ["proc_syntax.Run.run"]),
            ("What becomes of a call", ["node_model.Decide.decide_by"]),
            ("The fold", ["node_model.Fold.fold"]),
        ],
    ),
    (
        "2. Results, digests and tables",
        "What a node reports of the fold: of each block its outcomes, its serial order, its writes and its digest, and the tables after the last.",
        [
            ("The serial order of a block", ["node_model.Order.serial_order"]),
            ("The code and the digest of a block", ["node_model.BlockCode.digest_of"]),
            ("The results of a node", ["node_model.Fold.node_result"]),
        ],
    ),
    (
        "3. Files and the report",
        "Which blocks the bytes of a file are, what arrives by other files, and the bytes of the report. `over_run` says what a run answers.",
        [
            ("What arrives", ["bcdb.ArrivalFiles.all_arrived"]),
            ("The block file", ["chain_file.Chain.chain"]),
            ("The report", ["report_text.Report.report_lines"]),
            ("A run over files", ["bcdb.RunAnswer.over_run"]),
        ],
    ),
    (
        "4. The language of applications and its check",
        "Which bytes are an application, which tree they are, and why others are refused.",
        [
            ("The grammar", ["proc_parse.Tokens.tokens_of", "proc_parse.Grammar.application", "proc_parse.Faults.position_of"]),
            ("The check", ["proc_check.Apps.first_fault"]),
            ("Applications", ["bcdb.Accepted.accepted"]),
        ],
    ),
    (
        "5. Words, reads and faults, journals",
        "What the contract says besides: which words are a command, which bytes of files are read and whose failed read is reported,"
        " the journals that follow a report, and the orders in which the calls of a block run again.",
        [
            ("Words", ["cli_words.Language.texts", "cli_words.Language.settings_of"]),
            ("Reads and faults", ["bcdb.Plan.plan_of", "bcdb.Plan.AllowsPlan", "bcdb.Plan.RoseIn", "bcdb.Plan.RoseAt", "bcdb.Answer.Writes"]),
            ("Orders in which calls run again", ["serial_laws.InOrder.EachInOrder"]),
            ("Journals", ["cluster_run.Nodes.IsNodeOf", "cluster_run.Arrivals.AreFedBy"]),
            ("The answer to words", ["bcdb.Traced.EndsTraced"]),
        ],
    ),
]

# The constructors in the patterns of equations that speak of another command than `run`, by their type, and the clauses that do.
COMMANDS = {
    "Settings": {
        "Simulate": "simulate",
        "Query": "query",
        "Provenance": "provenance",
        "Seal": "seal",
        "Order": "order",
        "Checkpoint": "checkpoint and prove",
        "Compare": "compare",
        "Prove": "checkpoint and prove",
        "Verify": "verify",
        "Load": "load",
    },
    "FileKind": {"ScheduleFile": "simulate", "DigestsFile": "compare", "ProofFile": "verify"},
    "clauses": {"agrees": "simulate"},
}

AFTER = (
    "What the equations of the other commands need, by command, and nothing that stands above or under a command before it."
    " `plan_of`, `over_settings`, `Follows` and `IsAccepted` have an equation for each."
)

HEAD = """# The claim

All definitions that the contract of `bcdb` needs, each once, in the order of use. Definitions are written for contracts
and proofs and share no code with the program. `docs/claim_page.py` writes this page and the gate compares it.

## The contract

This is the contract of the top call in [top.rt](../{top}). `S` is any shelf of files, and `W` any
sink of bytes.

```rust
{contract}
```

`S.told` is what the files of the shelf hold, if the shelf tells it. `S.may_read` says which bytes may be asked for, and
`S.faults` counts the failed reads of each name ([shelf.rt](../crates/edge_traits/src/shelf.rt)). `W.written` is what
the sink took, if it tells, and `W.faults` counts its failed writes ([sink.rt](../crates/edge_traits/src/sink.rt)).
`x.old` and `x.new` are `x` before and after the call.

## The layers

| layer | definitions | lines | types of the program |
|---|---|---|---|
{layers}

A definition stands in the first layer that needs it. Lines are counted with comments, and without imports and blank
lines.

- Layer 1 is the heart: `fold app blocks` says what becomes of each call. Read `decide_by` and `fold` first.
- Layer 2 makes the fold a report over values: `node_result app blocks` is what each node must come to.
- Layer 3 makes it bytes: `over_run` is the report of `node_result` over the blocks that the block file has.
- Layer 4 says which `app` the bytes of an application are.
- Layer 5 has the rest of the contract: `ends` says that these bytes are written, or which read failed, or that memory
  ran out.

## How to check the claim

Layers 1 and 2, the core, take an afternoon, layer 3 another one, and the rest two days.

1. Read the contract above. `ends` is the clause that says what is written. `EndsTraced`, which it names, stands at the
   end of layer 5.
2. Read layers 1 and 2. Ask of each definition whether it says what [ABORTS.md](ABORTS.md) says. Then read layer 3
   beside [FORMATS.md](FORMATS.md).
3. Work one example through by hand: take a folder of `tests/cases`, decide each call by `decide_by`, and compare
   with its `stdout`.
4. Skim layers 4 and 5, and of the other commands what interests you.
5. Let the machine do what is left: `.ci/run` proves that the program meets the contract. To see that the proof depends
   on what you read, change a definition, as the order of two causes in `early`, and run `rt check` in a crate that uses
   it.

What is not settled by reading stands under "What is trusted" in [README.md](../README.md#what-is-trusted).

## How to read it

- `abbrev pub f : A → B → C` begins a definition: `f` takes an A and a B and gives a C. The lines below are its
  equations, tried from the top; `_` stands for anything. `f x y` is the call, and `λ x. e` is a function of x.
- `{{T : Type 0}} →` is a type parameter, which callers do not write. Under `module _ (x : T) where`, the definitions that
  are indented have the parameter `x` in common; elsewhere it is passed to them first.
- A name with a capital letter is a type, a statement or a variant. Statements are types too, of the type `Type 0`.
- Between statements `×` is "and", `⊎` is "or", `→` is "implies" and `≡` is "equals". `(x : A) → P` says P of each x,
  and `(x : A) × P` of some x. `Unit {{0}}` holds, `⊥` does not.
- Between types `A × B` is a pair, written `(a, b)`; its parts are `p.0` and `p.1`.
- `record` is a struct, and `record {{ field = x }}` makes one. `record r {{ field = x }}` is `r` with one field changed.
  `data` is an enum, whose variants stand below it.
- `Option`, `Result` and `Bool` are Rust's. `cond test a b` is a where the test is true, and else b. Texts and bytes are
  lists of numbers: `codes "tx"` is the list of the bytes of `tx`.
- `kind.Int` is the variant `Int` of a type whose variants the file names `kind`. A variant is also a function from its
  fields to the type. Of a type T that has parts of its own kind, `T-F R` is one step into it with an `R` in place of
  each such part, and `fold-T` goes up from the innermost parts.
- Contracts see numbers of the program as ℕ or ℤ, vectors as lists, and a reference or a box as what it leads to.
  A `Bor` is a reference, and `x.now` what it leads to.
- `pub law : STATEMENT` with no equations is a law. Its proof says nothing that a reader needs, and stands in its file.
- A definition that one definition alone uses stands indented under it, where both stand in one file. Words of names
  that are not used elsewhere stand in [DEFINITIONS.md](DEFINITIONS.md).

Types of the program whose fields contracts do not see:

| type | seen as |
|---|---|
{seen}

The names of the kit, all that stand on this page:

| name | what it means |
|---|---|
{kit}
"""

# The names of the kit that definitions use.
KIT = {
    "ℕ": "the numbers from 0 on, without a greatest",
    "zero": "0, in patterns",
    "suc": "`suc n` is the number after n, in patterns",
    "ℤ": "the numbers with a sign",
    "pos": "`pos n` is the number n of ℤ",
    "negsuc": "`negsuc n` is -(n + 1)",
    "◌+◌": "the sum",
    "◌-◌": "the difference, and 0 where it would be below 0",
    "◌*◌": "the product",
    "◌/◌": "the quotient, rounded down",
    "◌%◌": "the remainder",
    "◌^◌": "the power",
    "◌<◌": "the statement that one number is below another",
    "◌≤◌": "the statement that one number is at most another",
    "min": "the lesser of two numbers",
    "max": "the greater of two numbers",
    "nat_eq": "whether two numbers are equal",
    "◌==◌": "whether two numbers are equal",
    "nat_lt": "whether one number is below another",
    "nat_le": "whether one number is at most another",
    "div_ceil": "the quotient, rounded up",
    "◌+ℤ◌": "the sum in ℤ",
    "◌-ℤ◌": "the difference in ℤ",
    "◌*ℤ◌": "the product in ℤ",
    "neg_ℤ": "the number with the other sign",
    "nat_abs": "the number without its sign",
    "int_div": "the quotient in ℤ, rounded toward 0, as Rust has it",
    "int_rem": "the remainder of that quotient, with the sign of the dividend",
    "int_eq": "whether two numbers of ℤ are equal",
    "int_le": "whether one number of ℤ is at most another",
    "Width": "a width of machine numbers",
    "w32": "32 bits",
    "w64": "64 bits",
    "byte_len": "the number of bytes of a width",
    "to_be_bytes": "the bytes of a number of a width, the highest first",
    "from_be_bytes": "the number that these bytes are",
    "cast_unsigned": "the number from 0 on that has the same bits in two's complement",
    "cast_signed": "the number with a sign that has the same bits",
    "Bool": "`true` or `false`",
    "true": "yes",
    "false": "no",
    "not": "the other answer",
    "◌&&◌": "both",
    "◌||◌": "one of them",
    "cond": "`cond test a b` is a where the test is true, and else b",
    "◌≡◌": "the statement that two things are equal",
    "refl": "the proof that a thing is equal to itself",
    "◌⊎◌": "either of two statements",
    "leb-true": "a law: what the test `nat_le` passes is at most the other",
    "leb-zero": "a law: 0 is at most any number",
    "Option": "`None`, or `Some` of something",
    "None": "nothing",
    "Some": "something",
    "is_some": "whether there is something",
    "is_none": "whether there is nothing",
    "IsSome": "the statement that there is something",
    "IfSome": "a statement of what is there, which holds where nothing is",
    "IsSomeAnd": "something is there, and a statement holds of it",
    "unwrap_or": "what is there, or else another",
    "option_map": "a function applied to what is there",
    "option_map_or": "what a function makes of what is there, or else another (`option_map_or f o d`)",
    "option_and_then": "a function that may give nothing, applied to what is there",
    "option_or": "the first, or else the second",
    "option_to_list": "the list of what is there",
    "Result": "`Ok` of an answer, or `Err` of a reason",
    "Ok": "an answer",
    "Err": "a reason for none",
    "IsOk": "the statement that there is an answer",
    "List": "lists",
    "[]": "the empty list",
    "◌∷◌": "`x ∷ xs` begins with x, and then has xs",
    "◌++◌": "two lists, one after the other",
    "length": "how many items a list has",
    "map": "the list of what a function makes of each item",
    "filter": "the items that pass a test",
    "filter_map": "what a function gives of the items of which it gives something",
    "flat_map": "the lists that a function makes of each item, one after another",
    "concat": "some lists, one after another",
    "fold": "what a function makes of a value and the items, one after another (`list.fold`)",
    "find": "the first item that passes a test",
    "list_all": "whether all items pass a test",
    "list_any": "whether one item passes a test",
    "All": "a statement holds of all items",
    "take": "the first so many items",
    "drop": "the items after the first so many",
    "reverse": "the items from the last to the first",
    "replicate": "so many times one item",
    "range_with_len": "so many numbers from one on",
    "enumerate_from": "each item with its number, from a first number on",
    "slice_get": "the item at an index from 0, if there is one",
    "slice_index_or": "the item at an index from 0, or else another",
    "get_or": "the item at an index from 0, or else another",
    "slice_set": "the list with another item at an index",
    "position_from": "the index of the first item that passes a test, counted from a first number",
    "position_or_len": "the index of the first item that passes a test, or else the length",
    "prefix_len": "how many items at the start pass a test, up to the first that does not",
    "before_first": "the items before the first that passes a test",
    "slice_split": "the lists between the items that pass a test",
    "starts_with": "whether a list begins with another",
    "pointwise": "whether two lists have one length and items that pass a test in pairs",
    "count_by": "how many items pass a test",
    "sum_by": "the sum of what a function gives of each item",
    "IsPermutation": "the statement that two lists have the same items in some order",
    "Ordering": "`Less`, `Equal` or `Greater`: how the first of two things stands to the second",
    "nat_cmp": "how two numbers compare",
    "int_cmp": "how two numbers of ℤ compare",
    "bool_cmp": "how two answers compare; false stands before true",
    "slice_cmp": "how two lists compare: by the first items that differ, and a list stands before those that it begins",
    "ordering_then": "the first comparison, or the second where the first is `Equal`",
    "eq_by_cmp": "whether two things compare as `Equal`",
    "is_lt": "whether a comparison is `Less`",
    "is_le": "whether a comparison is not `Greater`",
    "is_gt": "whether a comparison is `Greater`",
    "is_ge": "whether a comparison is not `Less`",
    "is_eq": "whether a comparison is `Equal`",
    "is_ne": "whether a comparison is not `Equal`",
    "FinMap": "finite maps whose keys an order compares",
    "empty": "the map without entries (`finite.empty`)",
    "get": "the value at a key, if there is one (`finite.get`)",
    "insert": "the map with a value at a key (`finite.insert`)",
    "remove": "the map without a key (`finite.remove`)",
    "entries": "the pairs of key and value, in the order of keys (`finite.entries`)",
    "keys": "the keys, in order (`finite.keys`)",
    "from_entries": "the map of some pairs; of two with one key the first counts (`finite.from_entries`)",
    "put": "a list of entries in order, with a value at a key",
    "where_key": "the entries whose keys pass a test",
    "insert_entry": "a list of entries in order, with a value at a key",
    "lookup": "the value of the first entry whose key passes a test",
    "is_at": "whether a comparison finds a key equal",
    "codes": "the bytes of a text in quotes",
    "bytes_eq": "whether two lists of bytes are equal",
    "decimal": "a number in decimal digits",
    "signed_decimal": "a number of ℤ in decimal digits, with `-` where it is below 0",
    "digit_char": "the digit, `0` to `9` and `a` to `z`, of a number",
    "is_ascii_digit": "whether a byte is one of `0` to `9`",
    "is_utf8": "whether bytes are a text in UTF-8",
    "encode_lower": "bytes as lower-case hexadecimal digits",
    "decode_of": "the bytes of hexadecimal digits",
    "decode_sized": "so many bytes of hexadecimal digits",
    "FromHexError": "why digits are no bytes",
    "sha256": "SHA-256 of some bytes (FIPS 180-4)",
    "Data": "a JSON value",
    "object": "an object of members",
    "Members": "members of an object",
    "member": "a name, its value, and the members after it",
    "no_members": "no more members",
    "array": "an array of items",
    "Items": "items of an array",
    "item": "an item, and the items after it",
    "no_items": "no more items",
    "string": "a JSON string",
    "number": "a JSON number",
    "unsigned": "a number from 0 on",
    "of_integer": "a number with a sign",
    "boolean": "a JSON `true` or `false`",
    "compact_text": "the text of a JSON value without spaces, as `serde_json` writes it",
    "Bor": "a reference; `x.now` is what it leads to",
    "Arc": "a shared value; `x.value` is what is shared",
    "Global": "the allocator, which has no part in what is meant",
    "null_ptr": "a place in memory, which has no part in what is meant",
    "sameb": "whether two variants without fields are one",
}
