"""The generated parts of a document: each stands between `<!-- figures: NAME -->` and `<!-- end of figures -->`."""
import re

from results import Unfit

PART = re.compile(r"(?m)^<!-- figures: (\w+) -->\n(.*?)^<!-- end of figures -->$", re.DOTALL)


def part(name, body):
    """A generated part with its markers; empty lines keep a Markdown table or list apart from them."""
    return f"<!-- figures: {name} -->\n\n{body.strip()}\n\n<!-- end of figures -->"


def with_parts(text, bodies):
    """The document with its generated parts put anew; it has to have each of them once, and no other."""
    names = [match[1] for match in PART.finditer(text)]
    if sorted(names) != sorted(bodies) or text.count("<!-- figures: ") != len(names):
        raise Unfit(f"the document has the parts {', '.join(names) or 'none'}; wanted are {', '.join(bodies)}, once each, with both markers")
    return PART.sub(lambda match: part(match[1], bodies[match[1]]), text)
