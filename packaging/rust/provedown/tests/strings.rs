//! The three forms of a text.

use provedown::{CowStr, InlineStr};
use std::borrow::{Borrow, Cow};
use std::collections::{BTreeSet, HashMap, HashSet};

const SHORT: &str = "twenty-two bytes: 12é!";
const LONG: &str = "twenty-three bytes: 12é";

#[test]
fn lengths() {
    assert_eq!((SHORT.len(), LONG.len()), (22 + 1, 23 + 1));
    let of_22 = &SHORT[1..];
    assert_eq!(InlineStr::try_from(of_22).as_deref(), Ok(of_22));
    assert_eq!(
        InlineStr::try_from(SHORT).map_err(|error| error.to_string()),
        Err("a text of more than 22 bytes".into())
    );
    assert_eq!(&*InlineStr::from('é'), "é");
}

#[test]
fn forms_are_equal() {
    let forms = [CowStr::Borrowed("é"), CowStr::Boxed("é".into()), CowStr::Inlined('é'.into())];
    for form in &forms {
        assert_eq!((form, &**form, form.as_ref()), (&forms[0], "é", "é"));
        assert_eq!(form.to_string(), "é");
        assert_eq!(form.clone(), *form);
        assert_eq!(form.clone().into_string(), "é");
        assert_eq!(form.clone().into_static(), forms[0]);
        assert_eq!(String::from(form.clone()), "é");
        assert_eq!(Cow::from(form.clone()), Cow::Borrowed("é"));
    }
    assert_eq!(HashSet::from(forms.clone()).len(), 1);
    assert_eq!(BTreeSet::from(forms.clone()).len(), 1);
    assert!(HashMap::from([(forms[1].clone(), 1)]).contains_key("é"), "it hashes as its text");
    let borrowed: &str = forms[2].borrow();
    assert_eq!(borrowed, "é");
    let shown = forms.map(|form| format!("{form:?}"));
    assert_eq!(shown, ["Borrowed(\"é\")", "Boxed(\"é\")", "Inlined(\"é\")"]);
}

#[test]
fn conversions() {
    assert!(matches!(CowStr::from(LONG), CowStr::Borrowed(LONG)));
    assert!(matches!(CowStr::from(String::from("a")), CowStr::Boxed(_)));
    assert!(matches!(CowStr::from(Box::<str>::from("a")), CowStr::Boxed(_)));
    assert!(matches!(CowStr::from('a'), CowStr::Inlined(_)));
    assert!(matches!(CowStr::from(Cow::Borrowed("a")), CowStr::Borrowed("a")));
    assert!(matches!(CowStr::from(Cow::<str>::Owned("a".into())), CowStr::Boxed(_)));
    assert!(matches!(CowStr::from(Cow::Borrowed(&'a')), CowStr::Inlined(_)));
    assert!(matches!(CowStr::from("a").into_static(), CowStr::Inlined(_)));
    assert!(matches!(CowStr::from(LONG).into_static(), CowStr::Boxed(_)));
    assert!(matches!(CowStr::Boxed("a".into()).clone(), CowStr::Inlined(_)));
    assert!(matches!(CowStr::Boxed(LONG.into()).clone(), CowStr::Boxed(_)));
    assert!(matches!(Cow::from(CowStr::from(LONG)), Cow::Borrowed(LONG)));
    assert_eq!(&*CowStr::default(), "");
}
