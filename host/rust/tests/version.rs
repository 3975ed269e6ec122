//! The version of the calls for files, which is tested before any of them is made.

use daxfolin::smf::Song;
use daxfolin::wave::{self, Seek};
use std::panic::catch_unwind;

#[test]
fn the_archive_is_of_this_version() {
    assert_eq!(wave::version(), wave::VERSION);
}

/// For an archive of another version, which `host/test` makes: whichever call is the first, it is not made.
#[test]
#[ignore]
fn no_call_to_another_version() {
    let calls: [(&str, fn()); 9] = [
        ("read", || {
            let _ = wave::read(&[], &mut []);
        }),
        ("write", || {
            let _ = wave::write(44_100, &[], &mut []);
        }),
        ("mend", || {
            let _ = wave::mend(&[]);
        }),
        ("header", || {
            let _ = wave::header(44_100, 0);
        }),
        ("samples", || {
            let _ = wave::samples(&[], &mut []);
        }),
        ("bytes", || {
            let _ = wave::bytes(&[], &mut []);
        }),
        ("take", || {
            let _ = Seek::take(0);
        }),
        ("mending", || {
            let _ = Seek::mending(0);
        }),
        ("begin", || {
            let _ = Song::begin();
        }),
    ];
    for (name, call) in calls {
        let Err(said) = catch_unwind(call) else {
            panic!("{name} is called");
        };
        let said = said.downcast_ref::<&str>();
        assert_eq!(said, Some(&"an archive of another version is linked"));
    }
}
