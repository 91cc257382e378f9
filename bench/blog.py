"""One blog for sitebuild, Jekyll and Hugo: posts in Markdown with two layouts in each other, an include, tags, an index of
all posts, and pages of ten posts. What the three make of it has the same texts; Hugo's templates are in its own language."""
import os

WORDS = "a writer changes one line of a post and looks at the page at once because nothing else has to be made again".split()
TAGS = ["rivers", "maps", "bridges", "weather", "boats"]
KIB = 1024

CONFIG = """title: A blog
paginate: 10
permalink: /:year/:month/:day/:title/
"""
JEKYLL = """markdown: CommonMark
commonmark:
  options: [UNSAFE]
  extensions: []
plugins: [jekyll-commonmark, jekyll-paginate]
"""
BASE = """<!doctype html>
<html lang="en">
<head><meta charset="utf-8"><title>{{ page.title }} - {{ site.title }}</title></head>
<body>
<nav><a href="/">{{ site.title }}</a> <a href="/all/">All posts</a></nav>
{{ content }}
</body>
</html>
"""
POST = """---
layout: base
---
<article>
<h1>{{ page.title }}</h1>
<p>{{ page.date | date: "%Y-%m-%d" }}</p>
{% include tags.html tags=page.tags %}
{{ content }}
</article>
"""
NEWEST = """<ul>
{% for p in site.posts limit:10 %}<li><a href="{{ p.url }}">{{ p.title }}</a></li>
{% endfor %}</ul>
"""
TAG_LIST = """<p class="tags">{% for tag in include.tags %}<span>{{ tag }}</span> {% endfor %}</p>
"""
INDEX = """---
layout: base
title: Newest
---
{% for post in paginator.posts %}<h2><a href="{{ post.url }}">{{ post.title }}</a></h2>
{% endfor %}
<p>{% if paginator.previous_page_path %}<a href="{{ paginator.previous_page_path }}">newer</a>{% endif %} {{ paginator.page }} of {{ paginator.total_pages }} {% if paginator.next_page_path %}<a href="{{ paginator.next_page_path }}">older</a>{% endif %}</p>
"""
ALL = """---
layout: base
title: All posts
---
<ul>
{% for post in site.posts %}<li>{{ post.date | date: "%Y-%m-%d" }} <a href="{{ post.url }}">{{ post.title }}</a></li>
{% endfor %}</ul>
"""

HUGO_CONFIG = """title = "A blog"
baseURL = "/"
disableKinds = ["taxonomy", "term", "RSS", "sitemap", "404", "section"]
paginate = 10
[permalinks]
posts = "/:year/:month/:day/:slug/"
[markup.goldmark.renderer]
unsafe = true
[markup.goldmark.parser]
autoHeadingID = false
[markup.goldmark.extensions]
definitionList = false
footnote = false
linkify = false
strikethrough = false
table = false
taskList = false
typographer = false
"""
HUGO_BASE = """<!doctype html>
<html lang="en">
<head><meta charset="utf-8"><title>{{ .Title }} - {{ .Site.Title }}</title></head>
<body>
<nav><a href="/">{{ .Site.Title }}</a> <a href="/all/">All posts</a></nav>
{{ block "main" . }}{{ end }}
</body>
</html>
"""
HUGO_POST = """{{ define "main" }}<article>
<h1>{{ .Title }}</h1>
<p>{{ .Date.Format "2006-01-02" }}</p>
{{ partial "tags.html" . }}
{{ .Content }}
NEWEST</article>
{{ end }}
"""
HUGO_NEWEST = """<ul>
{{ range first 10 (where .Site.RegularPages "Section" "posts") }}<li><a href="{{ .RelPermalink }}">{{ .Title }}</a></li>
{{ end }}</ul>
"""
HUGO_TAG_LIST = """<p class="tags">{{ range .Params.tags }}<span>{{ . }}</span> {{ end }}</p>
"""
HUGO_INDEX = """{{ define "main" }}{{ $p := .Paginate (where .Site.RegularPages "Section" "posts") }}{{ range $p.Pages }}<h2><a href="{{ .RelPermalink }}">{{ .Title }}</a></h2>
{{ end }}
<p>{{ if $p.HasPrev }}<a href="{{ $p.Prev.URL }}">newer</a>{{ end }} {{ $p.PageNumber }} of {{ $p.TotalPages }} {{ if $p.HasNext }}<a href="{{ $p.Next.URL }}">older</a>{{ end }}</p>
{{ end }}
"""
HUGO_ALL = """{{ define "main" }}<ul>
{{ range where .Site.RegularPages "Section" "posts" }}<li>{{ .Date.Format "2006-01-02" }} <a href="{{ .RelPermalink }}">{{ .Title }}</a></li>
{{ end }}</ul>
{{ end }}
"""


CHAIN = """---
layout: base
---
{{ content }}{{ page.previous.content | size }}
"""


def write(folder, path, text):
    """Writes a file, with the folders that it needs."""
    path = os.path.join(folder, path)
    os.makedirs(os.path.dirname(path), exist_ok=True)
    with open(path, "w", encoding="utf-8") as file:
        file.write(text)


def day(number):
    """The day of a post, as year, month and day: twenty posts a day, on 28 days of a month."""
    months, days = divmod(number // 20, 28)
    years, month = divmod(months, 12)
    return f"{2000 + years:04}-{month + 1:02}-{days + 1:02}"


def words(number, count):
    return " ".join(WORDS[(number * 7 + at * 3) % len(WORDS)] for at in range(count))


def body(number, size):
    """Markdown of so many bytes: headings, emphasis, a list, code and links."""
    parts, length = [], 0
    while length < size:
        at = len(parts)
        part = [
            f"## {words(number + at, 4)}\n\n",
            f"{words(number + at, 30)} *{words(at, 2)}* and **{words(number, 2)}**, with `{words(at, 1)}`.\n\n",
            f"- {words(number + at, 6)}\n- {words(at, 5)} [{words(number, 2)}](https://example.org/{at})\n- {words(number, 4)}\n\n",
            f"> {words(number + at, 20)}\n\n",
            f"    {words(at, 6)}\n\n",
        ][at % 5]
        parts.append(part)
        length += len(part)
    return "".join(parts)[: max(size, 1)].rstrip() + "\n"


def title(number, edit=""):
    return f"Post {number} {words(number, 3)}{edit}"


def front(number, edit=""):
    tags = f"{TAGS[number % 5]}, {TAGS[(number + 2) % 5]}"
    return f"title: {title(number, edit)}\ntags: [{tags}]\n"


def post_path(number):
    return f"_posts/{day(number)}-post-{number}.md"


def post(number, size, edit="", title_edit=""):
    """The source of a post."""
    return f"---\nlayout: post\n{front(number, title_edit)}---\n{edit}{body(number, size)}"


def hugo_path(number):
    return f"content/posts/post-{number}.md"


def hugo_post(number, size, edit="", title_edit=""):
    return f"---\ndate: {day(number)}\nslug: post-{number}\n{front(number, title_edit)}---\n{edit}{body(number, size)}"


def write_blog(folder, count, size, newest=False):
    """The blog as sitebuild and Jekyll read it. With `newest` each post's layout lists the ten newest posts."""
    write(folder, "_config.yml", CONFIG)
    write(folder, "_layouts/base.html", BASE)
    write(folder, "_layouts/post.html", POST + (NEWEST if newest else ""))
    write(folder, "_includes/tags.html", TAG_LIST)
    write(folder, "index.html", INDEX)
    write(folder, "all.html", ALL)
    for number in range(count):
        write(folder, post_path(number), post(number, size))


def write_chain(folder):
    """Makes each post of a blog show something of the one before it, so that no two can be rendered at once."""
    write(folder, "_layouts/post.html", CHAIN)


def write_hugo(folder, count, size, newest=False):
    """The same blog as Hugo reads it."""
    write(folder, "hugo.toml", HUGO_CONFIG)
    write(folder, "layouts/_default/baseof.html", HUGO_BASE)
    write(folder, "layouts/_default/single.html", HUGO_POST.replace("NEWEST", HUGO_NEWEST if newest else ""))
    write(folder, "layouts/_default/all.html", HUGO_ALL)
    write(folder, "layouts/index.html", HUGO_INDEX)
    write(folder, "layouts/partials/tags.html", HUGO_TAG_LIST)
    write(folder, "content/all.md", "---\ntitle: All posts\nlayout: all\nurl: /all/\n---\n")
    for number in range(count):
        write(folder, hugo_path(number), hugo_post(number, size))
