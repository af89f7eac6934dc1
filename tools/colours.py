"""Reads a text by a TextMate grammar, as Visual Studio Code does: line by line, at each place the pattern that begins first, and of these the first
in the grammar. It knows `match`, `begin` and `end`, `captures` and `include`, which is what the files of editors/vscode use.
"""
import re


class Grammar:
    """A grammar, made from the object that its file holds."""

    def __init__(self, source):
        self.source = source
        self.top = list(self.flat(source["patterns"]))

    def flat(self, patterns):
        """The rules among the patterns, with those that they include."""
        for one in patterns:
            if "include" in one:
                yield from self.flat([self.source["repository"][one["include"].removeprefix("#")]])
            elif "match" in one or "begin" in one:
                yield {name: re.compile(text) if name in ("match", "begin", "end") else text for name, text in one.items()}
            else:
                yield from self.flat(one["patterns"])

    def scopes(self, text):
        """What each byte of a text is: the name of its scope, or "". Of captures the innermost name counts."""
        found, inside, start = [""] * len(text), None, 0
        for line in text.splitlines(keepends=True):
            at, body = 0, line.rstrip("\r\n")
            while at <= len(body):
                if inside:
                    end = inside["end"].search(body, at)
                    stop = end.end() if end else len(body)
                    paint(found, start + at, start + stop, inside["name"])
                    if not end:
                        break
                    at, inside = stop, None
                    continue
                hits = [(hit.start(), place, hit, rule) for place, rule in enumerate(self.top) if (hit := (rule.get("match") or rule["begin"]).search(body, at))]
                if not hits:
                    break
                _, _, hit, rule = min(hits, key=lambda one: one[:2])
                paint(found, start + hit.start(), start + hit.end(), rule.get("name", ""))
                for number, capture in rule.get("captures", {}).items():
                    if hit[int(number)] is not None:
                        paint(found, start + hit.start(int(number)), start + hit.end(int(number)), capture["name"])
                inside, at = rule if "begin" in rule else None, max(hit.end(), at + (hit.end() == hit.start()))
            start += len(line)
        return found


def paint(found, begin, end, name):
    """Names the bytes from one place to another."""
    found[begin:end] = [name] * (end - begin)
