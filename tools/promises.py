"""The promises that have a page of their own: what it says, its chapters, and the words that it does not define."""
from collections import namedtuple

from code_files import Home

# A part of what a promise rests on: all that the roots need, but for what this part only names. `chapters` has the title of
# the chapter in which the definitions of a crate are.
Part = namedtuple("Part", "roots named_alone chapters")
# A call with the clause that makes a promise, the words behind its contract, and the definition that is the promise.
Call = namedtuple("Call", "home clause words promise")
# A page: its file in docs/, what it begins with, the call, the parts, and what stands behind them.
Page = namedtuple("Page", "file head call parts tail")

SIGNS = """| written | means |
|---|---|
| `f : A → B → C`, then `f x y = ..` | `f` takes an `A` and a `B` and gives a `C`. Of several lines the first that fits counts |
| `.. → Type 0` | the result is a statement, which holds or does not |
| `P → Q`, `P × Q`, `P ⊎ Q` | if P then Q; both; one of them, or both |
| `(x : A) → P`, `(x : A) × P` | P for each `x`; P for some |
| `⊥`, `Unit {0}` | what never holds; what always does |
| `record R (x : A) : Type 0 where` | all lines below hold, or such a thing has all of these parts. `record { f = x }` makes one; `r.f` is a part of it |
| `data D : Type 0 where` | one of these, and nothing else |
| `A × B` of things, `(a, b)`, `p.0`, `p.1` | a pair, and its parts |
| `λ x. e` | the function that takes `x` and gives `e` |
| `let x = a in e` | `e`, where `x` is `a` |
| `do x ← a`, then `e` | `e`, with what `a` gives as `x`. If `a` is a fault, that fault |
| `{X : Type 0}` | for things of any kind |
| `ends.Value`, `coords.Mcc`, `coord.Coord` | `Value` of `End`, `Mcc` of `Coord`, `Coord` itself: a name with where it is from |
| `abbrev`, `unfoldable`, `pub` | how proofs use a definition. They change nothing of what it says |

A type of the code is shown as it stands there, in Rust. In definitions its numbers are natural numbers, and its arrays and slices are lists; `xs.items` is the list of the items of a `Vec`. A type with one part that has no name, such as `ResId`, has it as `id.0`; `record { 0 = n }` is the `ResId` of `n`. A name that ends in `Of`, such as `LayerOf`, is what definitions see of a thing of the code: its content, not its address."""

# Words of the library: the names that a row has, how they are written, and what they mean.
LIBRARY = [
    ("ℕ ℤ pos", "`ℕ`, `ℤ`, `pos n`", "natural numbers, from 0; whole numbers; `n` as a whole number"),
    ("zero suc", "`zero`, `suc n`", "0, and `n + 1`"),
    (
        "◌+◌ ◌-◌ ◌*◌ ◌/◌ ◌%◌ ◌^◌",
        "`+`, `-`, `*`, `/`, `%`, `^`",
        "of natural numbers: `a - b` is 0 where `b` is larger; `/` rounds down, `%` is what it leaves, and `2 ^ 32` is a power",
    ),
    ("◌+ℤ◌ ◌-ℤ◌", "`+ℤ`, `-ℤ`", "sum and difference of whole numbers"),
    ("◌≡◌ ◌≢◌ ◌<◌ ◌≤◌", "`≡`, `≢`, `<`, `≤`", "statements: equal, not equal, less, at most"),
    ("◌⊎◌", "`P ⊎ Q`", "P or Q, as above"),
    ("Bool true false", "`Bool`", "`true` or `false`: what a test gives"),
    ("◌==◌ nat_eq nat_lt nat_le", "`a == b`, `nat_eq a b`, `nat_lt a b`, `nat_le a b`", "tests of numbers: equal (both), less, at most"),
    ("int_lt bytes_eq", "`int_lt a b`, `bytes_eq a b`", "tests: less, of whole numbers; equal, of lists of numbers"),
    ("◌&&◌ ◌||◌ not", "`&&`, `\\|\\|`, `not`", "and, or, not of tests"),
    ("if◌then◌else◌", "`if t then a else b`", "`a` where the test is true, else `b`"),
    ("Option Some None", "`Option A`", "`Some a`, or `None`: there is one, or none"),
    (
        "is_some is_none option_or unwrap_or",
        "`is_some o`, `is_none o`, `option_or o p`, `unwrap_or o a`",
        "whether there is one; whether there is none; `o` where there is one, else `p`; what is in `o`, or `a`",
    ),
    (
        "option_map option_map_or option_eq",
        "`option_map f o`, `option_map_or a f o`, `option_eq t o p`",
        "`f` of what is in `o`; the same, or `a` where there is none; whether both have none, or two that pass a test",
    ),
    ("Result Ok Err", "`Result A E`", "`Ok a`, or `Err e`: a result, or a fault"),
    (
        "result_ok IfOk",
        "`result_ok r`, `IfOk r P`",
        "the `a` of `Ok a`, none of a fault; `P` holds of the `a` of `Ok a`, and of a fault nothing is said",
    ),
    (
        "List [] ◌∷◌ ◌++◌",
        "`List A`, `[]`, `x ∷ xs`, `xs ++ ys`",
        "lists; the empty one; `x` before `xs`; one behind the other",
    ),
    ("length take drop", "`length xs`, `take n xs`, `drop n xs`", "how many items; the first `n` of them; all but these"),
    (
        "map flat_map",
        "`map f xs`, `flat_map f xs`",
        "`f` of each item; the lists that `f` gives of each, one behind the other",
    ),
    (
        "filter find position last_or",
        "`filter t xs`, `find t xs`, `position t xs`, `last_or o xs`",
        "the items that pass a test; the first that does; its place, counted from 0; the last item, or `o` where there is none",
    ),
    (
        "list_all list_any Contains",
        "`list_all t xs`, `list_any t xs`, `Contains xs x`",
        "whether all items pass a test; whether one does; that `x` is an item",
    ),
    ("slice_get", "`slice_get xs i`", "the item at `i`, counted from 0, as an `Option`"),
    (
        "slice_index slice_index_or",
        "`slice_index xs i`, `slice_index_or xs i x`",
        "the item at `i`, and past the end 0, or `x`",
    ),
    (
        "from_be_bytes w32 w64",
        "`from_be_bytes w32 xs`, `from_be_bytes w64 xs`",
        "the number of four bytes, of eight, the most significant first",
    ),
    ("codes", "`codes t`", "the bytes of a text"),
]

CHAPTERS = {
    "contract_words": "Words for faults",
    "string_pool": "Strings, ids, values and goals",
    "res_value": "Strings, ids, values and goals",
    "locales": "Locales, and how they are compared",
    "config_record": "Configurations and devices",
    "config_match": "What a rule asks, and which configuration matches a device",
    "config_precedence": "Which of two is better",
    "box_answers": "Boxes of devices",
    "config_box": "Tests and trees",
    "cert_tree": "Tests and trees",
    "type_entries": "Tables and layers",
    "type_chunks": "Tables and layers",
    "overlay_map": "Tables and layers",
    "reference_resolver": "What a device selects, and where an id ends",
    "bag_rows": "Bags, themes, and where an attribute ends",
    "bags_themes": "Bags, themes, and where an attribute ends",
    "cert_checker": "Which leaf a device reaches",
}
FIRST_FAULT = Home("cert_checker", "FirstFault", "IsFirstFault")
SHOWN_DEVICES = Home("cert_checker", "verdict.rt", "Shown")
RULE_OF_NODES = Home("cert_checker", "rule.rt", "Rule")

HEADLINE = Page(
    file="HEADLINE.md",
    head="""# The headline

If `restool check` prints `accepted`, then on every device of the box each goal ends at the value or bag of the leaf that the device reaches. If it prints `rejected`, the node that it names is the first at which a rule fails, and the rule that it names is the first that fails there.

This page has all that these two sentences mean, as the prover has it: of a stack of layers, a box of devices and a certificate. Whoever has read it has seen every definition that they rest on, but for the lines of three lists of CLDR's. What is [left out](#what-is-left-out) stands at the end; no proof has to be read, and of the code only the types that are shown. Whether the definitions are Android's rules is for the reader to judge: they name the structs and functions of AOSP that they follow, and [DECISIONS.md](DECISIONS.md#where-the-rules-leave-aosps) says where they differ. `tools/definitions.py` makes the page from `specs/` and `src/`; do not edit it.

## How to read it

The promise comes first. Behind it each definition stands after all that it is made of, so that none has to be looked up ahead. At the end read the promise once more. The [index](#index) finds a name, [ARCHITECTURE.md](ARCHITECTURE.md#words) says what is called a row, a record, a stack, a box, and the [guide](GUIDE.md#certificates-the-answer-for-a-family-of-devices) what a goal and a leaf are.

Above a block stands what its file says of it: of the last definition, where there are several. Where nothing stands there, the names say it. The link under a heading leads to the file, which also has what this promise does not rest on.

Who asks for ids alone can pass over bags and themes. A device of a box whose locales are compared by language and region needs nothing of the chapter on phones. Who asks what `accepted` means can stop before `rejected`.
""",
    call=Call(
        home=Home("cert_checker", "checking.rt", "check"),
        clause="headline",
        words="""What is behind `ensures` holds when the call returns. `x.now` is what a reference points to: of `stack` the list of its layers, of `members` the 25 sets of the box. `result` is what is returned; if memory ran out, nothing is promised. `alloc` gives the memory.""",
        promise=Home("cert_checker", "Headline", "Headline"),
    ),
    parts=[
        Part(roots=[], named_alone=[FIRST_FAULT, RULE_OF_NODES, SHOWN_DEVICES], chapters=CHAPTERS),
        Part(roots=[FIRST_FAULT], named_alone=[SHOWN_DEVICES], chapters=dict.fromkeys(CHAPTERS, "What `rejected` means")),
    ],
    tail="""## What is left out

- How bytes become layers, a box and a certificate: [StackBytes](../crates/command_base/specs/StackBytes.antt), [BoxJson](../crates/config_box/specs/BoxJson.antt), [CertJson](../crates/cert_tree/specs/CertJson.antt), and what they rest on. [CheckHeadline](../crates/resource_tool/specs/CheckHeadline.antt) says the headline of bytes. In a box that was read none of the 25 sets is empty, and devices can have all of its numbers: that is `IsBox` in [Members](../crates/box_answers/specs/Members.antt).
- The other clause of the contract, `verdict`: `accepted` is said exactly where no rule fails, and a rejection shows devices that are right (`Shown`); by [Verdict](../crates/cert_checker/specs/Verdict.antt).
- How a verdict is printed: [CheckOutput](../crates/resource_tool/specs/CheckOutput.antt).
- What is [trusted](PROVED.md#what-is-trusted), as the toolchain is, with its library.
""",
)
PAGES = [HEADLINE]
