"""Tries plain/strip.py on worked examples and on all sources."""

import re
import sys

import needs
import pytest

sys.path.append(str(needs.ROOT / "plain"))
import strip

SOURCES = sorted((needs.ROOT / "crates").glob("*/src/**/*.rt"))

# Sources, and below each its Rust by hand (\\n is in a text), without the names that each file gets.
EXAMPLES = r"""
clauses:
  fn one(x: u32) -> u32\n    requires { x ≡ 1 }\n    ensures few { f {x} ≤ x' }\n{\n    x\n}
  #[doc = "\\n\\nRequires `x ≡ 1`."] fn one(x: u32) -> u32\n{\n    x\n}
ghost items:
  /// Of a proof.\nghost use A.{b, c};\nstruct S {\n    x: u8,\n    ghost fits: { x ≤ 3 },\n}
  struct S {\n    x: u8,\n}
attributes:
  #[tactic(auto, using(a [b]))]\n#[derive(Debug, Drop)]\nstruct S;\n#[derive(Drop)]\nstruct T;
  #[derive(Debug)]\nstruct S;\nstruct T;
indices:
  fn f(a: &[u8; 4], n: &mut [u8]) { n[1..a[0]][a.len()] = g()[2]; for x in [a[3]] {} }
  fn f(a: &[u8; 4], n: &mut [u8]) { n[At(1..a[At(0)])][At(a.len())] = g()[At(2)]; for x in [a[At(3)]] {} }
texts and comments:
  fn f() { g("a[1] std::x", b'[', r#"b[1]"#) } // a[1]
  fn f() { g("a[1] std::x", b'[', r#"b[1]"#) } // a[1]
paths:
  use std::io;\nuse core::mem::swap;\nfn f() { a.std::b }
  use shim::io;\nuse shim::mem::swap;\nfn f() { a.std::b }
calls that take memory:
  fn f() { x.to_vec(alloc); x.collect::<Vec<u8>>(rt.alloc()); x.collect(); x.repeat(alloc, 2) }
  fn f() { x.to_vec_by(alloc); x.collect_by::<Vec<u8>>(rt.alloc()); x.collect(); x.repeat_by(alloc, 2) }
a test:
  #[test]\nfn t(rt: HostRuntime) -> R { x }
  #[test]\nfn t() -> R { let rt = shim::rt::host(); x }
main:
  fn main(rt: HostRuntime) -> R {\n}
  shim::macros::main!(start -> R); fn start(rt: HostRuntime) -> R {\n}
a call for C:
  #[unsafe(no_mangle)]\npub extern "C" fn f(n: u32, a: &[u8], b: &mut [u64]) -> u32 { 0 }
  #[unsafe(export_name = "f")] pub unsafe extern "C" fn f_c(n: u32, a: *const u8, a_length: usize, b: *mut u64, b_length: usize) -> u32 { unsafe { f(n, shim::c::slice(a, a_length), shim::c::slice_mut(b, b_length)) } } pub fn f(n: u32, a: &[u8], b: &mut [u64]) -> u32 { 0 }
"""
LINE_END = re.compile(r"(?<!\\)\\n")


def squeezed(text):
    """A text without the names that each file gets, white space at ends of lines, and empty lines."""
    text = re.sub(r"#\[allow\(unused_imports\)\] use shim::.*?\}; ", "", text)
    return re.sub(r"\s*\n\s*\n*", "\n", re.sub(r" +", " ", text)).strip()


LINES = iter(EXAMPLES.strip().split("\n"))


@pytest.mark.parametrize("name, source, wanted", [*zip(LINES, LINES, LINES, strict=True)])
def test_example(name, source, wanted):
    source, wanted = (LINE_END.sub("\n", text.strip()) + "\n" for text in (source, wanted))
    wanted = wanted.replace(r"\\n", r"\n")
    assert squeezed(strip.plain(source)) == squeezed(wanted)


@pytest.mark.parametrize("path", SOURCES, ids=lambda path: str(path.relative_to(needs.ROOT)))
def test_lines_stay_and_no_requirement_is_lost(path):
    text = path.read_text()
    made = strip.plain(text)
    assert made.count("\n") == text.count("\n")
    assert not re.search(r"^\s*(ghost|requires|ensures)\b", made, re.M)
    assert made.count("Requires `") == len(re.findall(r"^ +requires\b", text, re.M))


NOT_PLAIN = "fn f()\n    requires { a {\n{ }\n", "#[tactic(a\n", "fn f() { a[1 }\n"


@pytest.mark.parametrize("source", NOT_PLAIN)
def test_what_is_not_understood(source):
    pytest.raises(strip.NotPlain, strip.plain, source)
