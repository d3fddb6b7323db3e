#!/usr/bin/env python3
"""Writes a further look, and prints the places where it becomes yours, each with its file and line.

    python3 bench/new_command.py WORD vertex|feature|page HELP [--at FOLDER]

WORD is the command's word; the look is at a vertex V, a feature F, or the page. HELP is its line of help, a phrase of
small letters as `what each further decision would make of V`. FOLDER is the top of a checkout, this one if none is
named. The look takes an order of the page, and answers one line: its word, and what it is about. As such it is whole:

- in vpg_script its row of the table of forms, with its help, and its definition;
- in vpg_looks a module of its own: code, definition, proof, law, a wrong body;
- in vpg_answers its meaning with its law, and its arm;
- its answer in docs/FORMATS.md, the same answer in bench/oracle.py, rows in vpg_examples.

Nothing is written if the word is taken, or if a place is not found.
"""
import keyword
import os
import re
import subprocess
import sys
import textwrap

KINDS = {"vertex": ("VertexLook", "V"), "feature": ("FeatureLook", "F"), "page": ("PageLook", "")}
# words of the language
KEPT = (
    "as break const continue else enum extern fn for ghost if impl in let loop match mod move mut pub ref return self "
    "static struct super trait type unsafe use where while"
).split()
ANSWERS, LOOKS, SCRIPT = "crates/vpg_answers", "crates/vpg_looks", "crates/vpg_script"


class Tree:
    """The files of a checkout, with what is to be written."""

    def __init__(self, top):
        self.top, self.texts = top, {}

    def text(self, path):
        if path not in self.texts:
            with open(f"{self.top}/{path}", encoding="utf-8") as it:
                self.texts[path] = it.read()
        return self.texts[path]

    def new(self, path, text):
        if os.path.exists(f"{self.top}/{path}"):
            sys.exit(f"{path} is there already: take another word")
        self.texts[path] = text

    def find(self, path, sought, start=0):
        """The place of the first such text from a place on."""
        at = self.text(path).find(sought, start)
        if at < 0:
            sys.exit(f"{path}: {sought.strip()!r} is not there")
        return at

    def put(self, path, at, text):
        self.texts[path] = self.text(path)[:at] + text + self.text(path)[at:]

    def before(self, path, sought, text, after=""):
        """Puts a text before the first one sought, behind the first of another."""
        self.put(path, self.find(path, sought, self.find(path, after)), text)

    def swap(self, path, old, new, after=""):
        """Puts a text in place of the first one sought, behind the first of another."""
        at = self.find(path, old, self.find(path, after))
        self.texts[path] = self.text(path)[:at] + new + self.text(path)[at + len(old) :]

    def close(self, path, head, text):
        """Puts a text at the end of a definition: before the first empty line behind this head."""
        self.before(path, "\n\n", f"\n{text}", head)

    def list(self, path, line, pattern):
        """Puts a line among others of a pattern, in their order."""
        lines = self.text(path).split("\n")
        places = [at for at, it in enumerate(lines) if re.fullmatch(pattern, it)]
        later = [at for at in places if lines[at] > line]
        lines.insert(later[0] if later else places[-1] + 1, line)
        self.texts[path] = "\n".join(lines)

    def write(self):
        for path, text in self.texts.items():
            os.makedirs(os.path.dirname(f"{self.top}/{path}"), exist_ok=True)
            with open(f"{self.top}/{path}", "w", encoding="utf-8") as it:
                it.write(text)

    def line(self, path, pattern):
        """The place of the first line of a pattern, to be read."""
        with open(f"{self.top}/{path}", encoding="utf-8") as it:
            for number, line in enumerate(it, 1):
                if re.search(pattern, line):
                    return f"{path}:{number}"
        return path


class Look:
    """A look's word, the names that are made of it, and its help."""

    def __init__(self, word, kind, told):
        self.word, self.kind, self.told = word, kind, told
        self.name, self.tells = word.capitalize(), f"Tells{word.capitalize()}"
        self.enum, self.subject = KINDS[kind]
        self.written = f"{word} {self.subject}".strip()

    def sentence(self):
        return f"{self.told[0].upper()}{self.told[1:]}."

    def help(self):
        """Its lines of help, of 80 columns at most."""
        first, *others = textwrap.wrap(self.told, 55)
        return "".join([f"  {self.written:<22} {first}", *(f"\n{'':25}{line}" for line in others)])


# ---- the module


CODE = {
    "vertex": """\
//! The answer to `{written}`: a line with the vertex.
ghost use Rattle.std.specs.Prelude.{{◌≡◌, ◌<◌, ◌++◌, IfOk, OnOk, length}};
ghost use Rattle.vpg_looks.specs.{name}.{{{tells}, {word}_line}};
ghost use Rattle.vpg_script.specs.Answer.{{Gives, IsDone}};
ghost use Rattle.vpg_texts.specs.Scene.{{scene_of}};

use crate::lines;
use crate::reasons::identifier;
use std::alloc::AllocError;
use vpg_game::VertexNames;
use vpg_measure::Order;
use vpg_script::{{Tone, done}};
use vpg_texts::blank_number;

fn line(identifier: u32, label: &[u8], out: &mut Vec<u8>) -> Result<(), AllocError>
    ensures {{ OnOk result (out.new.items ≡ out.old.items ++ {word}_line identifier label.now) }}
{{
    out.extend_from_slice(b"{word}")?;
    blank_number(identifier as u64, out)?;
    lines::end(label, out)
}}

/// Appends the line of a vertex, and returns the answer's tone.
pub fn put_{word}(
    order: &Order,
    labels: &VertexNames,
    vertex: u32,
    out: &mut Vec<u8>,
) -> Result<Tone, AllocError>
    requires {{ vertex < length order.now.game.vertices }}
    ensures {{ IfOk result (λ tone. Gives
        (IsDone ({tells} (scene_of labels.now.names order.now.game order.now.diagram) vertex)) tone
        out.old.items out.new.items) }}
{{
    done(line(identifier(order, vertex), labels.name(vertex), out))
}}
""",
    "feature": """\
//! The answer to `{written}`: a line with the feature.
ghost use Rattle.std.specs.Prelude.{{[], ◌≡◌, ◌<◌, ◌++◌, IfOk, OnOk, length}};
ghost use Rattle.vpg_diagram.specs.FeatureDiagram.{{feature_count}};
ghost use Rattle.vpg_looks.specs.{name}.{{{tells}, {word}_line}};
ghost use Rattle.vpg_script.specs.Answer.{{Gives, IsDone}};
ghost use Rattle.vpg_texts.specs.Scene.{{scene_of}};

use crate::reasons::names;
use std::alloc::AllocError;
use vpg_features::Names;
use vpg_measure::Order;
use vpg_script::{{Tone, done}};
use vpg_texts::blank_name;

fn line(names: &Names, feature: u16, out: &mut Vec<u8>) -> Result<(), AllocError>
    requires {{ feature < length names.now }}
    ensures {{ OnOk result (out.new.items ≡ out.old.items ++ {word}_line names.now feature) }}
{{
    out.extend_from_slice(b"{word}")?;
    blank_name(names, feature, out)?;
    out.extend_from_slice(b"\\n")
}}

/// Appends the line of a feature, and returns the answer's tone.
pub fn put_{word}(order: &Order, feature: u16, out: &mut Vec<u8>) -> Result<Tone, AllocError>
    requires {{ feature < feature_count order.now.diagram.lines }}
    ensures {{ IfOk result (λ tone. Gives
        (IsDone ({tells} (scene_of [] order.now.game order.now.diagram) feature)) tone
        out.old.items out.new.items) }}
{{
    done(line(names(order), feature, out))
}}
""",
    "page": """\
//! The answer to `{written}`: a line with its word.
ghost use Rattle.std.specs.Prelude.{{◌≡◌, ◌++◌, IfOk, OnOk}};
ghost use Rattle.vpg_looks.specs.{name}.{{{tells}, {word}_line}};
ghost use Rattle.vpg_script.specs.Answer.{{Gives, IsDone}};

use std::alloc::AllocError;
use vpg_script::{{Tone, done}};

fn line(out: &mut Vec<u8>) -> Result<(), AllocError>
    ensures {{ OnOk result (out.new.items ≡ out.old.items ++ {word}_line) }}
{{
    out.extend_from_slice(b"{word}\\n")
}}

/// Appends the line, and returns the answer's tone.
pub fn put_{word}(out: &mut Vec<u8>) -> Result<Tone, AllocError>
    ensures {{ IfOk result (λ tone. Gives (IsDone {tells}) tone out.old.items out.new.items) }}
{{
    done(line(out))
}}
""",
}

SPECS = {
    "vertex": """\
-- The answer to `{written}`. This project's own.
use Rattle.std.specs.Prelude.{{◌≡◌, ℕ, List, [], ◌∷◌, ◌++◌, codes}}
use Rattle.vpg_texts.specs.Labels.{{beside}}
use Rattle.vpg_texts.specs.Scene.{{Scene}}
use Rattle.vpg_texts.specs.Text.{{blank_number}}
use Rattle.vpg_looks.specs.Answers.{{identifier_of, label_in}}

-- a line with the word, and with a vertex and its name
abbrev pub {word}_line : (identifier : ℕ) → (label : List ℕ) → List ℕ
{word}_line identifier label = codes "{word}" ++ blank_number identifier ++ beside label ++ 10 ∷ []

-- the answer to `{written}`: the vertex's line
abbrev pub {tells} : Scene → (vertex : ℕ) → (text : List ℕ) → Type 0
{tells} scene vertex text = text ≡ {word}_line (identifier_of scene vertex) (label_in scene vertex)
""",
    "feature": """\
-- The answer to `{written}`. This project's own.
use Rattle.std.specs.Prelude.{{◌≡◌, ℕ, List, [], ◌∷◌, ◌++◌, codes}}
use Rattle.vpg_texts.specs.Scene.{{Scene}}
use Rattle.vpg_texts.specs.Text.{{blank_name}}

-- a line with the word and a feature
abbrev pub {word}_line : List (List ℕ) → (feature : ℕ) → List ℕ
{word}_line names feature = codes "{word}" ++ blank_name names feature ++ 10 ∷ []

-- the answer to `{written}`: the feature's line
abbrev pub {tells} : Scene → (feature : ℕ) → (text : List ℕ) → Type 0
{tells} scene feature text = text ≡ {word}_line scene.names feature
""",
    "page": """\
-- The answer to `{written}`. This project's own.
use Rattle.std.specs.Prelude.{{◌≡◌, ℕ, List, codes}}

-- a line with the word
abbrev pub {word}_line : List ℕ
{word}_line = codes "{word}\\n"

-- the answer to `{written}`: this line
abbrev pub {tells} : (text : List ℕ) → Type 0
{tells} text = text ≡ {word}_line
""",
}

PROOFS = {
    "vertex": """\
use Rattle.std.proofs.Common.{{ap₂}}
use Rattle.vpg_texts.specs.Scene.{{scene_of}}
use Rattle.vpg_texts.proofs.Shown.{{on_ok}}
use Rattle.vpg_looks.specs.{name}.{{{tells}, {word}_line}}
use Rattle.vpg_looks.proofs.Told.{{told_done}}
use Rattle.vpg_looks.proofs.{word}.put_{word}.Goals as goal

pub returns : goal.returns
returns c =
    let order = c.args.order.now in
    told_done ({tells} (scene_of c.args.labels.now.names order.game order.diagram) c.args.vertex) c.line.result
    c.done.result c.done.ensures c.args.out.now.items c.line.new.out.items
    (on_ok c.line.result _ _
    (λ items. (
      {word}_line c.identifier.result c.name.result.now,
      (ap₂ {word}_line c.identifier.ensures c.name.ensures, items),
    )) c.line.ensures)
""",
    "feature": """\
use Rattle.std.proofs.Common.{{[], ap, arith, ℕ, List}}
use Rattle.std.proofs.lemmas.Grind.{{common_steps}}
use Rattle.vpg_texts.specs.Scene.{{scene_of}}
use Rattle.vpg_texts.proofs.Shown.{{on_ok}}
use Rattle.vpg_looks.specs.{name}.{{{tells}, {word}_line}}
use Rattle.vpg_looks.proofs.Told.{{told_done}}
use Rattle.vpg_looks.proofs.{word}.put_{word}.Goals as goal

pub line-requires : goal.line-requires
line-requires c = grind (arith, common_steps)

pub returns : goal.returns
returns c =
    let order = c.args.order.now in
    told_done ({tells} (scene_of [] order.game order.diagram) c.args.feature) c.line.result
    c.done.result c.done.ensures c.args.out.now.items c.line.new.out.items
    (on_ok c.line.result _ _
    (λ items. (
      {word}_line c.names.result.now c.args.feature,
      (ap (λ (names : List (List ℕ)). {word}_line names c.args.feature) c.names.ensures.names, items),
    )) c.line.ensures)
""",
    "page": """\
use Rattle.std.proofs.Common.{{refl}}
use Rattle.vpg_texts.proofs.Shown.{{on_ok}}
use Rattle.vpg_looks.specs.{name}.{{{tells}, {word}_line}}
use Rattle.vpg_looks.proofs.Told.{{told_done}}
use Rattle.vpg_looks.proofs.{word}.put_{word}.Goals as goal

pub returns : goal.returns
returns c =
    told_done {tells} c.line.result c.done.result c.done.ensures c.args.out.now.items c.line.new.out.items
    (on_ok c.line.result _ _ (λ items. ({word}_line, (refl, items))) c.line.ensures)
""",
}

LAWS = {
    "vertex": """\
-- Two answers to `{written}` are one text.
use Rattle.std.proofs.Common.{{◌≡◌, ℕ, List, sym, ◌∙◌}}
use Rattle.vpg_texts.specs.Scene.{{Scene}}
use Rattle.vpg_looks.specs.{name}.{{{tells}}}

pub {word}_one : (scene : Scene) (vertex : ℕ) (one other : List ℕ) → {tells} scene vertex one →
    {tells} scene vertex other → one ≡ other
{word}_one scene vertex one other a b = a ∙ sym b
""",
    "feature": """\
-- Two answers to `{written}` are one text.
use Rattle.std.proofs.Common.{{◌≡◌, ℕ, List, sym, ◌∙◌}}
use Rattle.vpg_texts.specs.Scene.{{Scene}}
use Rattle.vpg_looks.specs.{name}.{{{tells}}}

pub {word}_one : (scene : Scene) (feature : ℕ) (one other : List ℕ) → {tells} scene feature one →
    {tells} scene feature other → one ≡ other
{word}_one scene feature one other a b = a ∙ sym b
""",
    "page": """\
-- Two answers to `{written}` are one text.
use Rattle.std.proofs.Common.{{◌≡◌, ℕ, List, sym, ◌∙◌}}
use Rattle.vpg_looks.specs.{name}.{{{tells}}}

pub {word}_one : (one other : List ℕ) → {tells} one → {tells} other → one ≡ other
{word}_one one other a b = a ∙ sym b
""",
}


def module(tree, look):
    """The look's own files, and the lines that name them."""
    names = vars(look)
    tree.new(f"{LOOKS}/src/{look.word}.rt", CODE[look.kind].format(**names))
    tree.new(f"{LOOKS}/specs/{look.name}.antt", SPECS[look.kind].format(**names))
    tree.new(f"{LOOKS}/proofs/One{look.name}.antt", LAWS[look.kind].format(**names))
    tree.new(f"{LOOKS}/proofs/{look.word}/put_{look.word}/Answers.antt", PROOFS[look.kind].format(**names))
    tree.list(f"{LOOKS}/src/lib.rt", f"pub mod {look.word};", r"(pub )?mod \w+;")
    tree.list(f"{LOOKS}/specs/Lib.antt", f"pub mod {look.name}", r"pub mod \w+")
    tree.list(f"{LOOKS}/proofs/Lib.antt", f"pub mod One{look.name}", r"pub mod \w+")
    # the list of modules is laid out again
    path = f"{ANSWERS}/src/answering.rt"
    head = "use vpg_looks::{"
    begin = tree.find(path, head)
    end = tree.find(path, "};", begin)
    used = sorted([*re.findall(r"\w+", tree.text(path)[begin + len(head) : end]), look.word])
    lines = ["   "]
    for it in used:
        if len(f"{lines[-1]} {it},") > 100:
            lines.append("   ")
        lines[-1] += f" {it},"
    tree.swap(path, tree.text(path)[begin:end], "\n".join([head, *lines, ""]))


# ---- the row


def row(tree, look):
    """The look, its row in the table of forms, and the row's definition."""
    variant = f"    /// {look.sentence()}\n    {look.name},\n"
    tree.before(f"{SCRIPT}/src/look.rt", "}\n\n", variant, f"pub enum {look.enum} {{")
    taken = {"vertex": "Vertex", "feature": "Feature"}.get(look.kind)
    lines = [f'word: "{look.word}",', f'written: "{look.written}",']
    lines += [f"parameters: &[Parameter::{taken}],", "least: 1,"] if taken else []
    lines += [f"of_{look.kind}: Some({look.enum}::{look.name}),", 'help: "']
    text = "".join(f"        {it}\n" for it in lines)
    text = f'    CommandForm {{\n{text}{look.help()}",\n        ..PLAIN\n    }},\n'
    tree.before(f"{SCRIPT}/src/forms.rt", "];\n", text, "const FORMS: ")
    text = f'    {look.kind}_look (codes "{look.word}") {look.kind}_looks.{look.name} ∷\n'
    tree.before(f"{SCRIPT}/specs/Forms.antt", "    []\n", text, "\nforms =\n")
    if look.kind == "feature":
        calling(tree, look.name)


def calling(tree, name):
    """That the feature's name has one meaning: only `why` has a second."""
    arm = f"        FeatureLook::{name} => Look::OfFeature(look, name),\n"
    tree.before(f"{SCRIPT}/src/meaning.rt", "        FeatureLook::Why =>", arm)
    cites = "use Rattle.vpg_script.specs.declared.look.FeatureLook.TheVariants"
    for path, case in [
        ("specs/Calling.antt", f"meant_feature callings features {name} name = OfFeature {name} name\n"),
        ("proofs/Nameless.antt", f"none_feature features {name} name = refl\n"),
    ]:
        tree.before(f"{SCRIPT}/{path}", case[: case.index(name)] + "Why", case)
        tree.swap(f"{SCRIPT}/{path}", "{Known, ", f"{{Known, {name}, ", cites)


# ---- the meaning, and the arm


def told_in(tree, look):
    """The look's meaning, with its law."""
    path = f"{ANSWERS}/specs/Told.antt"
    head = {
        "vertex": f"vertex_meaning behaviour vertex_looks.{look.name} v",
        "feature": f"feature_meaning feature_looks.{look.name} feature",
        "page": f"page_meaning page_looks.{look.name}",
    }[look.kind]
    of = {"vertex": " s.scene v", "feature": " s.scene feature", "page": ""}[look.kind]
    text = f"{head} =\n    shown (λ s. {look.tells}{of}) (λ s. {look.word}_one{of})"
    tree.close(path, f"abbrev pub {look.kind}_meaning :", text)
    for part, uses in ("specs", f"{look.name}.{{{look.tells}}}"), ("proofs", f"One{look.name}.{{{look.word}_one}}"):
        tree.list(path, f"use Rattle.vpg_looks.{part}.{uses}", rf"use Rattle\.vpg_looks\.{part}\.\w+\.\{{.*\}}")


def arm(tree, look):
    """The arm of the code. It has an answer where the type of a meaning depends on the look."""
    path, own = f"{ANSWERS}/src/answering.rt", f"fn of_{look.kind}("
    given = {"vertex": "order, labels, vertex, out", "feature": "order, feature, out", "page": "out"}[look.kind]
    text = f"        {look.enum}::{look.name} => {look.word}::put_{look.word}({given}),\n"
    last = {"vertex": "    }\n}\n", "feature": "        FeatureLook::Known", "page": "        PageLook::Show\n"}
    tree.before(path, last[look.kind], text, own)
    if look.kind == "vertex":
        return
    path = f"{ANSWERS}/proofs/answering/of_{look.kind}/Answers.antt"
    # with one arm that is reached, the goal has no name of its own
    only = re.search(r"pub returns : goal\.returns\nreturns c = λ names limits\. rw c\.in-(\w+)\.is", tree.text(path))
    if only:
        old = f"returns-in-{only[1]}"
        tree.swap(path, only[0], f"pub {old} : goal.{old}\n{old} c = λ names limits. rw c.in-{only[1]}.is")
    goal, given = f"returns-in-{look.name}", "λ names limits. " if look.kind == "feature" else ""
    text = f"pub {goal} : goal.{goal}\n{goal} c = {given}rw c.in-{look.name}.is c.put_{look.word}.ensures\n"
    tree.texts[path] = f"{tree.text(path).rstrip()}\n\n{text}"


def order(tree, look):
    """That the look takes an order, where this is said look by look."""
    if look.kind == "vertex":
        return
    specs, topic, looking = f"{ANSWERS}/specs/Topics.antt", f"{ANSWERS}/src/topic.rt", f"{ANSWERS}/src/looking.rt"
    if look.kind == "page":
        tree.before(specs, "page_takes_order _ ", f"page_takes_order page_looks.{look.name} = true\n")
        tree.swap(topic, ")\n", f" | PageLook::{look.name})\n", "Topic::OfPage(PageLook::Forced")
        tree.swap(looking, " =>", f" | PageLook::{look.name} =>", "        PageLook::Forced")
        return
    tree.close(specs, "abbrev pub feature_takes_order :", f"feature_takes_order feature_looks.{look.name} = true")
    tree.swap(topic, ", _)", f" | FeatureLook::{look.name}, _)", "Topic::OfFeature(FeatureLook::Why")
    tree.swap(looking, " =>", f" | FeatureLook::{look.name} =>", "        FeatureLook::Why")


# ---- documents, the oracle and rows


def documents(tree, look):
    """The end of its answer, and its answer."""
    path, row = "docs/FORMATS.md", f"\n| `{look.written}` | `{look.written}` |"
    # below the row of `example V` stand searches, which may end unsettled
    tree.before(path, "\n", row, "| `known F` |")
    text = f"\n## {look.name}: `{look.word}`\n\n`{look.written}` writes `{look.written}`.\n"
    tree.texts[path] = tree.text(path) + text
    if look.kind == "feature":
        tree.before(path, "`why` |", f"`{look.word}`, ", "| `UnknownFeature` |")


CALCULATED = {
    "vertex": """\
    @look("vertex", "{word} V")
    def {word}(self, identifier):
        self.place(int(identifier))
        return f"{word} {{identifier}}"
""",
    "feature": """\
    @look("feature", "{word} F")
    def {word}(self, name):
        self.feature(name)
        return f"{word} {{name}}"
""",
    "page": """\
    @look("page", "{word}")
    def {word}(self):
        return "{word}"
""",
}


def calculated(tree, look):
    """The same answer, by the oracle."""
    path, heading = "bench/oracle.py", "    # ---- vertices by their names\n"
    begin, end = tree.find(path, "class Desk:"), tree.find(path, "\n# ---- names\n")
    other = re.compile(rf"def {look.word}\(|self\.{look.word}\b").search(tree.text(path), begin, end)
    if other:
        number = tree.text(path).count("\n", 0, other.start()) + 1
        sys.exit(f"{path}:{number} has {look.word} for something else: rename that first")
    tree.before(path, heading, f"    # ---- {look.word}\n\n{CALCULATED[look.kind].format(word=look.word)}\n")


# by what a look is about: the table of rows, a script with its answers, and arguments that it does not take
ROWS = {
    "vertex": ("OFFERS", "{0} 0 / {0} 1 / {0} 7", "{0} 0 / {0} 1 / refused NoVertex", ["{0}", "{0} 0 1"]),
    "feature": ("KNOWN", "{0} f / {0} r / {0} h", "{0} f / {0} r / refused UnknownFeature", ["{0}", "{0} +f"]),
    "page": ("PRODUCTS_LEFT", "{0}", "{0}", ["{0} 1"]),
}


def rows(tree, look):
    """A row on its happy path and with its refusal, and lines with other arguments."""
    folder = "crates/vpg_examples/src/scripts"
    table, *script, wrong = ROWS[look.kind]
    script, answers = (it.format(look.word) for it in script)
    fields = ["diagram: DIAGRAM,", "game: GAME,", f'script: "{script}",', f'answers: "{answers}",']
    text = "".join(f"        {it}\n" for it in fields)
    more(tree, f"{folder}/rows.rt", rf"static {table}: \[Row; (\d+)\]", f"    Row {{\n{text}    }},\n", 1)
    text = "".join(f'    "{it.format(look.word)}",\n' for it in wrong)
    more(tree, f"{folder}/served.rt", r"static ARGS: \[&str; (\d+)\]", text, len(wrong))


def more(tree, path, head, text, count):
    """Puts so many items at the end of an array, behind its head with its length."""
    found = re.search(head, tree.text(path))
    if not found:
        sys.exit(f"{path}: {head} is not there")
    tree.before(path, "];\n", text, found[0])
    begin, end = found.span(1)
    tree.texts[path] = f"{tree.text(path)[:begin]}{int(found[1]) + count}{tree.text(path)[end:]}"


# ---- wrong bodies, and what is left


def wrong_bodies(tree, look):
    """A wrong text, and a row that means another look."""
    other = {"vertex": "VertexLook::Why", "feature": "FeatureLook::Known", "page": "PageLook::Count"}[look.kind]
    end = "\\n" if look.kind == "page" else ""
    edit = f'file: src/{look.word}.rt\nold: b"{look.word}{end}"\nnew: b"other{end}"\n'
    tree.new(f"{LOOKS}/wrong-bodies/{look.word}_has_another_word.edit", edit)
    edit = f"file: src/forms.rt\nold: Some({look.enum}::{look.name})\nnew: Some({other})\n"
    tree.new(f"{SCRIPT}/wrong-bodies/{look.word}_is_read_as_another.edit", edit)


def left(tree, look):
    """The places of a person: the file with its line, and what to write there."""
    rows, table = "crates/vpg_examples/src/scripts/rows.rt", ROWS[look.kind][0]
    means = rf"^{look.kind}_meaning .*{look.kind}_looks\.{look.name}\b"
    names = f"specs/{look.name}.antt, proofs/{look.word}, proofs/One{look.name}.antt"
    formats = tree.line("docs/FORMATS.md", f"^## {look.name}: ")
    oracle = tree.line("bench/oracle.py", f"def {look.word}\\(")
    return [
        (formats, "what it answers; its row in `Scripts`: a search's below `example V`"),
        (oracle, "the same, calculated from docs/, and the forms of its lines"),
        (f"{LOOKS}/src/{look.word}.rt", f"the module: code, definition, proof, law ({names})"),
        (tree.line(f"{ANSWERS}/specs/Told.antt", means), "its meaning, with the arguments of its definition and law"),
        (tree.line(f"{ANSWERS}/src/answering.rt", f"{look.enum}::{look.name} =>"), "its arm, with what it takes"),
        (tree.line(rows, f"^static {table}:"), "the last row of this table: its happy path and each refusal"),
        (f"{LOOKS}/wrong-bodies/{look.word}_has_another_word.edit", "more of them, for each clause"),
        (tree.line("docs/DECISIONS.md", "^## Scripts"), "each choice, with its reason"),
    ]


def main(words):
    top = os.path.dirname(os.path.dirname(os.path.abspath(__file__)))
    if "--at" in words:
        at = words.index("--at")
        top = os.path.abspath(words[at + 1])
        del words[at : at + 2]
    word, kind, told = words if len(words) == 3 else ("", "", "")
    is_word = re.fullmatch(r"[a-z]{2,18}", word) and word not in KEPT and not keyword.iskeyword(word)
    if kind not in KINDS or not is_word or not re.fullmatch(r'[^"\\\n.]+', told):
        sys.exit(__doc__)
    tree, look = Tree(top), Look(word, kind, told)
    if f'word: "{word}"' in tree.text(f"{SCRIPT}/src/forms.rt"):
        sys.exit(f"{word} is a command already")
    if re.search(rf"^    {look.name}\b", tree.text(f"{SCRIPT}/src/look.rt"), re.M):
        sys.exit(f"{SCRIPT}/src/look.rt has a look {look.name} already: take another word")
    for part in (module, row, told_in, arm, order, documents, calculated, rows, wrong_bodies):
        part(tree, look)
    tree.write()
    for crate in (SCRIPT, LOOKS, ANSWERS, "crates/vpg_examples"):
        subprocess.run(["rt", "fmt"], cwd=f"{top}/{crate}", check=True)
    print(f"written: {', '.join(sorted(tree.texts))}\n\nnow make it yours:")
    for number, (place, what) in enumerate(left(tree, look), 1):
        print(f"{number}. {place}: {what}")
    print("\nThen go on as CONTRIBUTING.md says, `How a look is added`.")


main(sys.argv[1:])
