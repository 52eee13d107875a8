"""Texts that would be more than text if a page let them: thirteen kinds."""

from __future__ import annotations

HOSTILE = (
    "<script>document.title='owned'</script>",
    "<img src=x onerror=\"document.title='owned'\">",
    "<svg/onload=document.title='owned'>",
    "\"><script>document.title='owned'</script>",
    "' autofocus onfocus='document.title=`owned`' x='",
    "</figcaption></article></main><script>document.title='owned'</script>",
    "<!--><script>document.title='owned'</script>",
    "&lt;script&gt;document.title='owned'&lt;/script&gt;",
    "{{ 7 * 7 }}{% raw %}${document.title='owned'}",
    "javascript:document.title='owned'",
    '=HYPERLINK("https://example.com/owned","owned")',
    "1 l\u202e 2.06 owned",
    "1 kg\u2069\u2029\u202e owned",
)
"""In each of them something would become `owned`: the title of the page by a script, or the text beside it."""
