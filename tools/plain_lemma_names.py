#!/usr/bin/env python3
"""Spells lemmas whose name is a sentence with `_` alone, where snake_names.py left a dash: a dash joins names of functions only.

usage: plain_lemma_names.py      at the top of the repository, once, after snake_names.py
"""
import glob
import re

NAMES = """answers-other_short apart_match-nil beside-turned_back called-names_are copies_beside-differ decided-by_apart encode-some_in
field-at_place fill-bytes_in free_below-names is_silent-ren judged-same_never_late_different kept-at_place l_par-left
late_judged-same_never_early_different list_under-tidied listed-at_hand marks_from-at merged-length_in names-out_short names-out_wrong
new-name_is_apart no_answer-left no_call-past number-at_most_capacity number_is_field-size of_named-member of_tidy-moves put-result_inserted
put-result_long read_whole-first received-name_is_any related_beside-left related_new-output related_same-pairs related_same-tidied
scanned-by_shape sides_first-past sides_names-past sides_second-past silent-call_sound struck_at-first unseen-all_small
unsettled_iff_past-a_limit use_front-none visible-call_sound whole-by_scan write-left_stop write-par_stop write-res_stop
beside-bytes old-answer""".split()
TABLE = {it: it.replace("-", "_") for it in NAMES}
TOKEN = re.compile(r'"(?:[^"\\]|\\.)*"|[^\s(){}.;,@"«»`]+')


def main():
    files = [it for part in ("specs", "proofs") for it in glob.glob(f"crates/*/{part}/**/*.antt", recursive=True)]
    texts = {}
    for path in sorted(files):
        with open(path, encoding="utf-8") as it:
            texts[path] = it.read()
    declared = {it[1] for text in texts.values() for it in re.finditer(r"(?m)^ *(?:(?:pub|abbrev|unfoldable) )*([^\s:(){}]+)(?: \{[^}]*\})* :(?= |$)", text)}
    met = sorted(new for new in TABLE.values() if new in declared)
    if met:
        raise SystemExit("names that fall together: " + " ".join(met))
    for path, text in texts.items():
        new = TOKEN.sub(lambda it: TABLE.get(it[0], it[0]), text)
        if new != text:
            with open(path, "w", encoding="utf-8") as it:
                it.write(new)


main()
