//! Named soft scrolls, and pictures of frames by themselves.

use crate::glide;
use crate::glides::ALL;

#[test]
fn named_glides() {
    for named in &ALL {
        let printed = glide::output(named.script);
        let (printed, stored) = (printed.escape_ascii(), named.output.escape_ascii());
        assert_eq!(printed.to_string(), stored.to_string(), "{}", named.name);
    }
}

/// Input that ends elsewhere than just after a draw, or has a bad record.
#[test]
fn refused_scripts() {
    let script = ALL[0].script;
    assert_eq!(glide::output(b""), b"refused script at 0\n");
    assert_eq!(glide::output(&[3, 1]), b"refused script at 2\n");
    let longer = [script, &[3]].concat();
    let last = format!("refused script at {}\n", longer.len());
    assert!(glide::output(&longer).ends_with(last.as_bytes()));
    let longer = [script, &[9, 0]].concat();
    let last = format!("refused script at {}\n", script.len());
    assert!(glide::output(&longer).ends_with(last.as_bytes()));
}
