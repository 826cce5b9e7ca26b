"""What tools/dialects makes where no site of a dialect is at hand: sites with the forms that the dialect's documentation has."""

import posixpath

NAMES = ["setup", "usage", "api", "faq", "guide", "deploy", "notes", "release-1.2", "my page", "tips"]
TABS = "=== \"One\"\n\n    - [it](@)\n\n=== \"Two\"\n\n    [it][ref]\n\n    [ref]: @"
SECTIONS = ["", "start", "reference", "how to", "reference/more", "blog"]


def relative(page, path):
    """The path from a page to another."""
    return posixpath.relpath(path, posixpath.dirname(page) or ".")


def spaced(path):
    return path.replace(" ", "%20")


def alone(path, pages):
    """Whether no other page has the name of this one."""
    return sum(posixpath.basename(it) == posixpath.basename(path) for it in pages) == 1


def hyphened(path):
    """A path in a URL of Hugo."""
    return path.replace(" ", "-").lower()


def pages_of(rng, index):
    """The paths of some pages, with this name of an index page in most directories."""
    pages = {posixpath.join(section, f"{name}.md") for section in SECTIONS for name in rng.sample(NAMES, 4)}
    return sorted(pages | {posixpath.join(section, index) for section in SECTIONS if section == "" or rng.random() < 0.8})


def url_of(path, indexes=("index.md", "README.md", "_index.md")):
    """The pretty URL of a page, without a slash at its start."""
    above, name = posixpath.split(path)
    return f"{above}/" * bool(above) if name in indexes else f"{path.removesuffix('.md')}/"


def relative_url(page, path, indexes):
    """The pretty URL of a page from that of another."""
    return posixpath.relpath("/" + url_of(path, indexes), "/" + url_of(page, indexes)) + "/"


def write(top, path, text):
    file = top / path
    file.parent.mkdir(parents=True, exist_ok=True)
    file.write_text(text)


def images(top, below):
    """Some images."""
    paths = ["img/a.png", "img/b c.svg", "start/c.jpg"]
    for path in paths:
        write(top, posixpath.join(below, path), path)
    return paths


def page_text(rng, forms, page, pages, files):
    """A page with some forms of links, each to another page or file."""
    lines = [f"# {page}\n"]
    for _ in range(rng.randrange(4, 12)):
        form = rng.choice(forms)
        lines.append(form(page, rng.choice(pages), rng.choice(files)))
    return "\n\n".join(lines) + "\n"


def made_github(rng, top):
    """A repository, by GitHub's documentation of relative links and its flavour of Markdown."""
    pages = pages_of(rng, "README.md")
    files = images(top, "")
    forms = [
        lambda page, path, file: f"[it]({spaced(relative(page, path))}#top)",
        lambda page, path, file: f"[it](<{relative(page, path)}> 'a title')",
        lambda page, path, file: f"[it](/{spaced(path)})",
        lambda page, path, file: f"[it]({spaced(relative(page, posixpath.dirname(path) or '.'))})",
        lambda page, path, file: f"[it]({spaced(relative(page, posixpath.dirname(path) or '.'))}/)",
        lambda page, path, file: f"![it]({spaced(relative(page, file))}?raw=true)",
        lambda page, path, file: "<picture><source srcset=\"@ 2x\"><img src=\"@\"></picture>".replace("@", spaced(relative(page, file))),
        lambda page, path, file: f"<p align=center>\n  <a href='{spaced(relative(page, path))}'>it</a>\n</p>",
        lambda page, path, file: f"> [!NOTE]\n> [it][{file}]\n\n[{file}]: {spaced(relative(page, file))}",
        lambda page, path, file: f"A note[^1].\n\n[^1]: [it]({spaced(relative(page, path))})",
        lambda page, path, file: f"| a | b |\n|---|---|\n| [it]({spaced(relative(page, path))}) | `{path}` |",
        lambda page, path, file: f"- [ ] [it]({spaced(relative(page, path))})\n\n  ~~[it]({spaced(relative(page, path))})~~",
        lambda page, path, file: f"<details>\n<summary>it</summary>\n\n[it]({spaced(relative(page, path))})\n\n</details>",
    ]
    for page in pages:
        write(top, page, page_text(rng, forms, page, pages, files))


def made_mkdocs(rng, top):
    """A site of mkdocs, by its user guide, and the extensions `admonition`, `attr_list`, `footnotes` and `pymdownx`."""
    pages, indexes = pages_of(rng, rng.choice(["index.md", "README.md"])), ("index.md", "README.md")
    files = images(top, "docs")
    write(top, "docs/snippets/part.md", "A part.\n")
    forms = [
        lambda page, path, file: f"See [it]({spaced(relative(page, path))}#top).",
        lambda page, path, file: f"![it]({spaced(relative(page, file))}){{ width=30 }}",
        lambda page, path, file: f"!!! note\n\n    See [it]({spaced(relative(page, path))}).",
        lambda page, path, file: f"??? tip \"a title\"\n    ![it]({spaced(relative(page, file))})\n\n    more",
        lambda page, path, file: TABS.replace("@", spaced(relative(page, path))),
        lambda page, path, file: f"[it]({spaced(relative_url(page, path, indexes))})",
        lambda page, path, file: f"<img src=\"{spaced(posixpath.relpath('/' + file, '/' + url_of(page, indexes)))}\">",
        lambda page, path, file: f"<a href=\"{spaced(relative_url(page, path, indexes))}\">it</a>",
        lambda page, path, file: f"[it](/{spaced(url_of(path, indexes))})",
        lambda page, path, file: "--8<-- \"docs/snippets/part.md\"",
        lambda page, path, file: f"A note[^1].\n\n[^1]: See [it]({spaced(relative(page, path))}).",
        lambda page, path, file: f"| a | b |\n|---|---|\n| [it]({spaced(relative(page, path))}) | `{path}` |",
        lambda page, path, file: f"<div markdown>\n[it]({spaced(relative(page, path))})\n</div>",
    ]
    for page in pages:
        write(top, f"docs/{page}", page_text(rng, forms, page, pages, files))
    nav = "".join(f"  - {'' if rng.random() < 0.5 else 'A title: '}{page}\n" for page in pages if "/" not in page)
    sections = ""
    for section in SECTIONS[1:]:
        sections += f"  - {section}:\n" + "".join(f"    - {it}\n" for it in pages if posixpath.dirname(it) == section)
    extensions = "".join(f"  - {it}\n" for it in ("admonition", "attr_list", "footnotes", "tables", "md_in_html", "pymdownx.details",
                                                 "pymdownx.superfences", "pymdownx.snippets"))
    tabs = "  - pymdownx.tabbed:\n      alternate_style: true\n"
    write(top, "mkdocs.yml", f"site_name: made\nnav:\n{nav}{sections}markdown_extensions:\n{extensions}{tabs}")


def made_hugo(rng, top):
    """A site of Hugo, by its documentation of links, page bundles, front matter and shortcodes."""
    pages, indexes = pages_of(rng, "_index.md"), ("_index.md", "index.md")
    bundles = [f"{section}/bundle/index.md".lstrip("/") for section in ("", "blog")]
    files = images(top, "static")
    for bundle in bundles:
        write(top, f"content/{posixpath.dirname(bundle)}/photo.jpg", bundle)
    pages = sorted({*pages, *bundles})
    forms = [
        lambda page, path, file: f"[it]({{{{< ref \"/{path}\" >}}}})",
        lambda page, path, file: f"[it]({{{{< relref \"{relative(page, path)}\" >}}}})",
        lambda page, path, file: f"[it]({{{{% ref \"/{path.removesuffix('.md')}\" %}}}})",
        lambda page, path, file: f"[it](/{hyphened(url_of(path, indexes))})",
        lambda page, path, file: f"[it](/{hyphened(url_of(path, indexes)).rstrip('/')}#top)",
        lambda page, path, file: f"[it]({hyphened(relative_url(page, path, indexes))})",
        lambda page, path, file: f"[it]({{{{< ref \"{posixpath.basename(path)}\" >}}}})" if alone(path, pages) else "text",
        lambda page, path, file: f"[it]({{{{< ref {relative(page, path)} >}}}})" if not set("/ ") & set(relative(page, path)) else "text",
        lambda page, path, file: f"![it](/{spaced(file)})",
        lambda page, path, file: f"{{{{< figure src=\"/{file}\" title=\"it\" >}}}}",
        lambda page, path, file: f"<img src=\"/{spaced(file)}\">",
        lambda page, path, file: "![it](photo.jpg)" if page in bundles else f"[it](/{hyphened(url_of(path, indexes))})",
    ]
    for page in pages:
        front = f"---\ntitle: \"{page}\"\naliases:\n  - /was/{page.removesuffix('.md').replace(' ', '-')}/\n---\n"
        write(top, f"content/{page}", front + page_text(rng, forms, page, pages, files))


def made_mdbook(rng, top):
    """A book, by the documentation of mdBook."""
    pages = pages_of(rng, "README.md")
    files = images(top, "src")
    for file in ("src/listings/one.rs", "code/two.rs"):
        write(top, file, "fn main() {}\n// ANCHOR: part\n// ANCHOR_END: part\n")
    forms = [
        lambda page, path, file: f"[it]({spaced(relative(page, path))}#top)",
        lambda page, path, file: f"[it](<{relative(page, path)}>)",
        lambda page, path, file: f"[it]({spaced(relative(page, path).removesuffix('.md').replace('README', 'index'))}.html)",
        lambda page, path, file: f"<img src=\"{spaced(relative(page, file))}\">",
        lambda page, path, file: f"![it][image]\n\n[image]: {spaced(relative(page, file))}",
        lambda page, path, file: f"```rust\n{{{{#include {relative(page, 'listings/one.rs')}:part}}}}\n```",
        lambda page, path, file: f"```rust\n{{{{#rustdoc_include {relative(page, '../code/two.rs')}:1:2}}}}\n```",
        lambda page, path, file: f"{{{{#playground {relative(page, 'listings/one.rs')} editable}}}}",
        lambda page, path, file: f"> - [it]({spaced(relative(page, path))})",
    ]
    for page in pages:
        write(top, f"src/{page}", page_text(rng, forms, page, pages, files))
    entries = "".join(f"- [{it}]({spaced(it) if rng.random() < 0.5 else f'<./{it}>'})\n" for it in pages[1:])
    write(top, "src/SUMMARY.md", f"# Summary\n\n[{pages[0]}]({spaced(pages[0])})\n\n{entries}")
    write(top, "book.toml", "[book]\ntitle = \"made\"\n")


def made_jekyll(rng, top):
    """A site of Jekyll, by its documentation of links, collections and includes."""
    pages = [it for it in pages_of(rng, "index.md") if " " not in it]
    posts = [f"_posts/2024-0{number}-01-{name}.md" for number, name in enumerate(("hello", "news", "more"), 1)]
    files = [it for it in images(top, "") if " " not in it]
    write(top, "parts/part.md", "A part.\n")
    forms = [
        lambda page, path, file: f"[it]({{% link {path} %}})",
        lambda page, path, file: f"[it]({{% post_url {rng.choice(posts)[7:-3]} %}})",
        lambda page, path, file: f"[it]({{{{ '/{path.removesuffix('.md')}.html' | relative_url }}}})",
        lambda page, path, file: f"[it]({{{{ site.baseurl }}}}/{path.removesuffix('.md')})",
        lambda page, path, file: f"[it](/{path.removesuffix('.md')}.html)",
        lambda page, path, file: f"![it](/{file})",
        lambda page, path, file: f"<img src=\"{{{{ site.baseurl }}}}/{file}\">",
        lambda page, path, file: f"[it]({relative(page, path)})",
    ]
    for page in pages + posts:
        write(top, page, f"---\ntitle: {page}\n---\n" + page_text(rng, forms, page, pages, files))
    write(top, "_config.yml", "title: made\n")


MADE = {"github": made_github, "mkdocs": made_mkdocs, "hugo": made_hugo, "mdbook": made_mdbook, "jekyll": made_jekyll}
