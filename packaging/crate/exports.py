"""The rule for functions that C calls."""

from rattle_tokens import SourceError, Token, after, closing, end_of, match, pattern_of, tokens_of

HEAD = pattern_of('#[unsafe(no_mangle)] pub extern "C" fn')
# The parameters of C in place of a slice, and the expression that makes the slice of them.
SLICES = {
    "&[u8]": ("{0}: *const u8, {0}_len: usize", "shared({0}, {0}_len)"),
    "&mut[u8]": ("{0}: *mut u8, {0}_len: usize", "exclusive({0}, {0}_len)"),
}
# Where the package has the functions that make a slice.
MEMORY = "crate::support::memory::"
NUMBERS = ("bool", "u8", "u32", "u64", "usize")
EXPORT = """

const _: () = {{
    #[unsafe(no_mangle)]
    unsafe extern "C" fn {name}({parameters}){result} {{
        // SAFETY: each pointer and its length are memory of the caller, as the header says.
        unsafe {{ self::{name}({arguments}) }}
    }}
}};
"""


def parameters_of(tokens):
    """Returns the names and the types of a function's parameters."""
    text = "".join(token.text for token in tokens if not token.is_blank())
    return [tuple(part.split(":")) for part in text.split(",") if part]


def export_of(name, parameters, result, line):
    """Returns the function of C for a function that takes slices."""
    declared, passed = [], []
    for parameter, kind in parameters:
        if kind not in SLICES and kind not in NUMBERS:
            raise SourceError(line, f"no rule for the type `{kind}` of an exported function")
        as_declared, as_passed = SLICES.get(kind, ("{0}: " + kind, "{0}"))
        declared.append(as_declared.format(parameter))
        passed.append(as_passed.format(parameter))
    words = {"name": name, "parameters": ", ".join(declared), "arguments": ", ".join(passed)}
    tokens = tokens_of(EXPORT.format(result=result, **words), line)
    return [Token("name", MEMORY + t.text, line) if t.is_name("shared", "exclusive") else t for t in tokens]


def write_exports(tokens):
    """Makes each exported function one of Rust, and adds the function that C calls.

    In Rattle a slice is a pointer and a length for C. In Rust these are two parameters. Returns the
    tokens and how many functions there were.
    """
    out, exports, at, count = [], [], 0, 0
    while at < len(tokens):
        name, _ = match(tokens, at, HEAD)
        if name is None:
            out.append(tokens[at])
            at += 1
            continue
        name, line, count = after(tokens, name - 1), tokens[at].line, count + 1
        opened = after(tokens, name)
        closed = closing(tokens, opened)
        result = "".join(t.text for t in tokens[closed + 1 : end_of(tokens, closed, "{")]).rstrip()
        exports.extend(export_of(tokens[name].text, parameters_of(tokens[opened + 1 : closed]), result, line))
        out.extend(tokens_of("pub fn ", line))
        at = name
    return [*out, *exports], count
