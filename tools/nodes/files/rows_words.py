"""The reader's src/words.rt: a reader for each enum of words. Many words are looked for among those of their length."""

import layout
from names import READER, SPECS, is_data
from table import snake

MOST = 5


def write(table):
    words = [w for w in table.words.values() if not is_data(w)]
    files = {"crates/jsgen_fields/src/words.rt": rust(words)}
    for w in words:
        files[f"crates/jsgen_fields/proofs/words/needed_{w.short}/Answers.antt"] = read_answers(w)
        if is_many(w):
            files[f"crates/jsgen_fields/proofs/words/{w.short}_by_word/Answers.antt"] = answers(w)
    return files


def is_many(w):
    return len(w.words) > MOST


def rust(words):
    parts = []
    for w in words:
        parts += [of_length(w, n) for n in lengths(w)] + [by_length(w)] if is_many(w) else [by_word(w)]
        parts += [reader(w)]
    ghosts = [("Rattle.std.specs.Prelude", ["◌≡◌", "true", "option_map"]), (f"{READER}.specs.Given", ["row_data"])]
    ghosts += [(f"{SPECS}.Atom", ["no_value"] + [w.short for w in words]), (f"{SPECS}.Table", ["word"])]
    ghosts += [(f"{SPECS}.Fields", [f"{w.short}_words" for w in words])]
    ghosts += [(f"{READER}.specs.Reads", ["read_value"]),
               (f"{READER}.specs.Values", ["Same", "at", "field as value_under", "word_meaning", "words_of_length"])]
    homes = [("crate::values", ["needed_word"]), ("crate", ["At", "InputFault"]), ("crate::given", ["GivenRow"])]
    homes += [("jsgen_syntax" if w.home else "jsgen_tree", [w.name]) for w in words]
    return layout.rust("Fields that hold a word.", ghosts, [], joined(homes), "\n\n".join(parts))


def joined(homes):
    every = {}
    for module, names in homes:
        every[module] = every.get(module, []) + names
    return list(every.items())


def lengths(w):
    return sorted({len(word) for word, _ in w.words})


def of_length(w, n):
    words = [(word, variant) for word, variant in w.words if len(word) == n]
    return choice(w, words, f"{w.short}_of_length_{n}", f"(words_of_length {n} {w.short}_words)")


def by_word(w):
    return choice(w, w.words, f"{w.short}_by_word", f"{w.short}_words")


def choice(w, words, name, among):
    arms = "".join(f'        "{word}" => Some({w.name}::{variant}),\n' for word, variant in words)
    return f"""fn {name}(word: &str) -> Option<{w.name}>
    ensures {{ option_map {w.short} result ≡ word_meaning {among} word.now }}
{{
    match word {{
{arms}        _ => None,
    }}
}}"""


def by_length(w):
    arms = "".join(f"        {n} => {w.short}_of_length_{n}(word),\n" for n in lengths(w))
    return f"""fn {w.short}_by_word(word: &str) -> Option<{w.name}>
    ensures {{ option_map {w.short} result ≡ word_meaning {w.short}_words word.now }}
{{
    match word.len() {{
{arms}        _ => None,
    }}
}}"""


def reader(w):
    return f"""pub fn needed_{w.short}(number: usize, field: usize, row: &GivenRow<'_>, name: &str) -> Result<{w.name}, InputFault>
    ensures {{ Same (λ o. {w.short} o) result
        (read_value (at number field) true no_value (word {w.short}_words) (value_under name.now (row_data row.now))) }}
{{
    match needed_word(number, field, row, name) {{
        Ok(word) => match {w.short}_by_word(word) {{
            Some(found) => Ok(found),
            None => Err(InputFault::Wrong(At::of_row(number, field))),
        }},
        Err(fault) => Err(fault),
    }}
}}"""


def read_answers(w):
    said = {
        "returns-in-Some": "word_read _ _ _ _ _ _ c.in-Ok.ensures (sym c.in-Some.ensures)",
        "returns-in-None": "λ told. rw c.of_row.ensures (word_unknown _ _ _ _ _ c.in-Ok.ensures (sym c.in-None.ensures))",
        "returns-in-Err": "λ told. word_refused _ _ _ _ _ (c.in-Err.ensures told)",
    }
    parts = [f"pub {goal} : goal.{goal}\n{goal} c = {term}" for goal, term in said.items()]
    homes = [("Rattle.std.proofs.Common", ["sym"]), (f"{READER}.proofs.WordReads", ["word_read", "word_unknown", "word_refused"])]
    aliases = [(f"{READER}.proofs.words.needed_{w.short}.Goals", "goal")]
    return layout.antt("A word is read where the text has a meaning.", homes, aliases, "\n\n".join(parts))


def answers(w):
    parts = []
    for n in lengths(w):
        goal = f"returns-in-{n}"
        parts.append(f"pub {goal} : goal.{goal}\n{goal} c = c.{w.short}_of_length_{n}.ensures ∙ "
                     f"of_length {n} c.args.word.now {w.short}_words c.in-{n}.is")
    homes = [("Rattle.std.proofs.Common", ["◌∙◌"]), (f"{SPECS}.Fields", [f"{w.short}_words"]),
             (f"{READER}.proofs.WordLengths", ["of_length"])]
    aliases = [(f"{READER}.proofs.words.{w.short}_by_word.Goals", "goal")]
    return layout.antt("A word is one of those of its length.", homes, aliases, "\n\n".join(parts))
