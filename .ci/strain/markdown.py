"""Texts of Markdown that are known to take other programs long, or much stack; cmark's suite has most of them. What comes out follows from the standard."""
from __future__ import annotations

from typing import Callable

from texts import FRONT, grows

Making = Callable[[int], str]


def in_markdown(name: str, text: Making, html: Making, size: int) -> None:
    grows(
        f"Markdown: {name}",
        lambda count: {"a.md": FRONT + b"{% raw %}" + text(count).encode() + b"{% endraw %}"},
        lambda count: {"a.html": html(count).encode()},
        size,
    )


def paragraph(name: str, text: Making, size: int, inside: Making = lambda count: "") -> None:
    """A text that is one paragraph; what stands in it is the text itself where nothing else is given."""
    in_markdown(name, text, lambda count: f"<p>{inside(count) or text(count).rstrip()}</p>\n", size)


def lists(count: int) -> str:
    return "<ul>\n<li>\n" * (count - 1) + "<ul>\n<li>x</li>\n</ul>\n" + "</li>\n</ul>\n" * (count - 1)


def quotes(count: int, inside: str) -> str:
    return "<blockquote>\n" * count + inside + "</blockquote>\n" * count


paragraph(
    "emphasis in emphasis", lambda n: "*a **a " * n + "b" + " a** a*" * n, 65000, lambda n: "<em>a <strong>a " * n + "b" + " a</strong> a</em>" * n
)
paragraph("ends of emphasis without a start", lambda n: "a_ " * n, 65000)
paragraph("starts of emphasis without an end", lambda n: "_a " * n, 65000)
paragraph("ends of links without a start", lambda n: "a]" * n, 65000)
paragraph("starts of links without an end", lambda n: "[a" * n, 65000)
paragraph("starts and ends that do not match", lambda n: "*a_ " * n, 50000)
paragraph("emphasis that crosses", lambda n: "*a " * n + "_a*_ " * n, 20000, lambda n: "<em>a " * n + ("_a</em>_ " * n).rstrip())
paragraph("runs whose lengths are multiples of three", lambda n: "a**b" + "c* " * n, 50000)
paragraph("starts of links and ends of emphasis", lambda n: "[ a_" * n, 50000)
paragraph("brackets and parentheses", lambda n: "[ (](" * n, 80000)
paragraph("links in images that have no end", lambda n: "![[]()" * n, 160000, lambda n: '![<a href=""></a>' * n)
paragraph("brackets in brackets", lambda n: "[" * n + "a" + "]" * n, 50000)
paragraph("links in links", lambda n: "[" * n + "a" + "](/u)" * n, 50000, lambda n: "[" * (n - 1) + '<a href="/u">a</a>' + "](/u)" * (n - 1))
paragraph("images in images", lambda n: "![" * n + "a" + "](/u)" * n, 50000, lambda n: '<img src="/u" alt="a" />')
in_markdown("quotes in quotes", lambda n: "> " * n + "a", lambda n: quotes(n, "<p>a</p>\n"), 50000)
in_markdown(
    "lists in lists, a line each",
    lambda n: "".join("  " * depth + "* a\n" for depth in range(n)),
    lambda n: "<ul>\n<li>a\n" * (n - 1) + "<ul>\n<li>a</li>\n</ul>\n" + "</li>\n</ul>\n" * (n - 1),
    500,
)
in_markdown("lists in lists, all on a line", lambda n: "- " * n + "x", lists, 50000)
in_markdown("empty lines in lists in lists", lambda n: "- " * n + "x" + "\n" * n, lists, 30000)
in_markdown("empty lines in lists in lists in a quote", lambda n: "> " + "- " * n + "x\n" + ">\n" * n, lambda n: quotes(1, lists(n)), 30000)
in_markdown("lines that go on in quotes in quotes", lambda n: ">" * n + "x\n" + "a\n" * n, lambda n: quotes(n, "<p>x" + "\na" * n + "</p>\n"), 50000)
in_markdown("emphasis in quotes in quotes", lambda n: ">" * n + "a*" * n, lambda n: quotes(n, "<p>" + "a<em>a</em>" * (n // 2) + "</p>\n"), 50000)
paragraph("the character 0", lambda n: "abc\0de\0" * n, 20000, lambda n: "abc\ufffdde\ufffd" * n)
paragraph("runs of backticks of all lengths", lambda n: "".join("e" + "`" * length for length in range(1, n)), 1250)
paragraph("a link to < without an end", lambda n: "[a](<b" * n, 30000, lambda n: "[a](&lt;b" * n)
paragraph("a link without an end", lambda n: "[a](b" * n, 30000)
paragraph("a title without an end", lambda n: "[a](/u 'b" * n, 30000)
for what, start in (("comments", "<!--"), ("instructions", "<?"), ("declarations", "<!A"), ("sections", "<![CDATA["), ("attributes", "<a b='"), ("addresses", "<a:")):
    paragraph(f"{what} without an end", lambda n, start=start: "x</" + start * n, 100000, lambda n, start=start: "x" + ("</" + start * n).replace("<", "&lt;"))
in_markdown(
    "many definitions and many uses",
    lambda n: "".join(f"[{number}]: u\n" for number in range(n)) + "\n" + "[0] " * n,
    lambda n: "<p>" + ('<a href="u">0</a> ' * n).rstrip() + "</p>\n",
    50000,
)
paragraph("many uses of what is not defined", lambda n: "[0] " * n, 100000)

# Each rule on much of what it reads.
in_markdown("many headings", lambda n: "# a\n" * n, lambda n: "<h1>a</h1>\n" * n, 100_000)
in_markdown("a heading of many lines", lambda n: "a\n" * n + "===\n", lambda n: "<h1>" + "a\n" * (n - 1) + "a</h1>\n", 100_000)
in_markdown("many fences", lambda n: "```\n" * 2 * n, lambda n: "<pre><code></code></pre>\n" * n, 50_000)
in_markdown("many items", lambda n: "- a\n" * n, lambda n: "<ul>\n" + "<li>a</li>\n" * n + "</ul>\n", 50_000)
in_markdown("many items with lines between them", lambda n: "- a\n\n" * n, lambda n: "<ul>\n" + "<li>\n<p>a</p>\n</li>\n" * n + "</ul>\n", 50_000)
in_markdown("many numbers", lambda n: "".join(f"{number}. a\n" for number in range(1, n + 1)), lambda n: "<ol>\n" + "<li>a</li>\n" * n + "</ol>\n", 50_000)
in_markdown("many lines of HTML", lambda n: "<div>\n" * n, lambda n: "<div>\n" * n, 100_000)
in_markdown("a quote that goes on for many lines", lambda n: "> a\n" + "b\n" * n, lambda n: "<blockquote>\n<p>a" + "\nb" * n + "</p>\n</blockquote>\n", 100_000)
in_markdown("a title of many lines", lambda n: '[a]: u "' + "t\n" * n + '"\n', lambda n: "", 200_000)
in_markdown("a break of many marks", lambda n: "* " * n, lambda n: "<hr />\n", 1_000_000)
paragraph("many character references", lambda n: "&amp;" * n, 100_000)
paragraph("many marks of a character reference", lambda n: "&" * n, 200_000, lambda n: "&amp;" * n)
paragraph("many backslashes", lambda n: "\\" * 2 * n, 200_000, lambda n: "\\" * n)
paragraph("many breaks of lines", lambda n: "a  \n" * n + "a", 50_000, lambda n: "a<br />\n" * n + "a")
paragraph("many attributes", lambda n: "x<a " + "b " * n + ">", 200_000)
paragraph("a long address of mail", lambda n: "<a@" + "a." * n + "a>", 200_000, lambda n: '<a href="mailto:a@' + "a." * n + 'a">a@' + "a." * n + "a</a>")
paragraph("emphasis in the text for an image", lambda n: "![" + "*a* " * n + "a](u)", 50_000, lambda n: '<img src="u" alt="' + "a " * n + 'a" />')
