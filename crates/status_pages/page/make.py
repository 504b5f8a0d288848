#!/usr/bin/env python3
# Writes src/page.rt anew from index.html, without indents and comments, with the policy that lets the browser run its script and
# no other; with --check says whether it is as it would be written.
import base64
import hashlib
import os
import sys

here = os.path.dirname(os.path.abspath(__file__))
lines = [line.strip() for line in open(f'{here}/index.html', encoding='utf-8')]
page = ''.join(line + '\n' for line in lines if not line.startswith('//'))
assert '"#' not in page


def source_of(tag):
    """The one script or style of the page, as a policy names it (Content Security Policy, level 3, section 2.3.1)."""
    text, = [part.split(f'</{tag}>')[0] for part in page.split(f'<{tag}>')[1:]]
    return "'sha256-" + base64.b64encode(hashlib.sha256(text.encode()).digest()).decode() + "'"


policy = (f"default-src 'none'; script-src {source_of('script')}; style-src {source_of('style')}; connect-src 'self'; "
          "img-src data:; base-uri 'none'; form-action 'none'; frame-ancestors 'none'")
text = f'''// The page, as page/make.py makes this file of page/index.html.

/// The page, which asks for `overview` beside it.
pub const PAGE: &str = r#"{page}"#;

/// What the browser may do for it, as a `Content-Security-Policy`: run its script, use its style, ask where it came from.
pub const PAGE_POLICY: &str =
    "{policy}";
'''
target = f'{here}/../src/page.rt'
if '--check' in sys.argv:
    sys.exit(0 if open(target, encoding='utf-8').read() == text else 'src/page.rt is not made of page/index.html')
open(target, 'w', encoding='utf-8').write(text)
