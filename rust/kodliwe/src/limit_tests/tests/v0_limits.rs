// Made from crates/limit_tests/src/tests/v0_limits.rt by packaging/crate/erase.py: edit that file instead.
//! Tests of v0 symbols at their limits: depth, the length of a name, and the size of the output.
use super::{assert_prints, assert_prints_long, assert_rejected};
use crate::demangle_vectors::{print_symbol, repeat_between};
use crate::rustc_demangle::sink::WriteSink;
use crate::rustc_demangle::{demangle, try_demangle};
use crate::support::alloc::{AllocError, Global};
use crate::support::format;
use crate::support::rt::HostRuntime;
use crate::support::string::String;
use crate::support::test::Fail;
use crate::support::texts::RepeatIn;
use crate::support::vec::Vec;

const MARKER: &str = "{size limit reached}";

const TOO_DEEP: &str = "{recursion limit reached}";

#[test]
fn types_nest_up_to_500_deep() -> Result<(), Fail> {
    let rt = HostRuntime;
    let alloc = rt.alloc();
    let deep = repeat_between(alloc, "_RMC0", "R", 499, "u")?;
    let text = repeat_between(alloc, "<", "&", 499, "()>")?;
    assert_prints(deep.as_str(), text.as_str(), text.as_str());
    let deeper = repeat_between(alloc, "_RMC0", "R", 500, "u")?;
    assert_rejected(deeper.as_str(), deeper.as_str());
    Ok(())
}

#[test]
fn paths_nest_up_to_500_deep() -> Result<(), Fail> {
    let rt = HostRuntime;
    let alloc = rt.alloc();
    let names = "1b".repeat_in(alloc, 499)?;
    let deep = repeat_between(alloc, "_R", "Nv", 499, "C1a")?;
    let deep = format!(in alloc; "{deep}{names}")?;
    let text = repeat_between(alloc, "a", "::b", 499, "")?;
    assert_prints(deep.as_str(), text.as_str(), text.as_str());
    let deeper = repeat_between(alloc, "_R", "Nv", 500, "C1a1b")?;
    let deeper = format!(in alloc; "{deeper}{names}")?;
    assert_rejected(deeper.as_str(), deeper.as_str());
    Ok(())
}

#[test]
fn constants_nest_up_to_500_deep() -> Result<(), Fail> {
    let rt = HostRuntime;
    let alloc = rt.alloc();
    let deep = repeat_between(alloc, "_RIC0K", "R", 498, "h0_E")?;
    let plain = repeat_between(alloc, "::<{", "&", 498, "0u8}>")?;
    let alt = repeat_between(alloc, "::<{", "&", 498, "0}>")?;
    assert_prints(deep.as_str(), plain.as_str(), alt.as_str());
    let deeper = repeat_between(alloc, "_RIC0K", "R", 499, "h0_E")?;
    assert_rejected(deeper.as_str(), deeper.as_str());
    Ok(())
}

#[test]
fn patterns_nest_up_to_500_deep() -> Result<(), Fail> {
    let rt = HostRuntime;
    let alloc = rt.alloc();
    let ends = "E".repeat_in(alloc, 498)?;
    let deep = repeat_between(alloc, "_RMC0Wm", "O", 498, "N")?;
    let deep = format!(in alloc; "{deep}{ends}")?;
    assert_prints(deep.as_str(), "<u32 is !null>", "<u32 is !null>");
    let deeper = repeat_between(alloc, "_RMC0Wm", "O", 499, "NE")?;
    let deeper = format!(in alloc; "{deeper}{ends}")?;
    assert_rejected(deeper.as_str(), deeper.as_str());
    Ok(())
}

#[test]
fn depth_is_given_back() -> Result<(), Fail> {
    let rt = HostRuntime;
    let alloc = rt.alloc();
    for (leaf, printed_leaf) in [("p", ", _"), ("Rp", ", &_"), ("C1x", ", x")] {
        let symbol = repeat_between(alloc, "_RIC0p", leaf, 1_000, "E")?;
        let text = repeat_between(alloc, "::<_", printed_leaf, 1_000, ">")?;
        assert_prints_long(alloc, symbol.as_str(), text.as_str())?;
    }
    Ok(())
}

#[test]
fn a_target_is_one_deeper_than_its_reference() -> Result<(), Fail> {
    let rt = HostRuntime;
    let alloc = rt.alloc();
    let head = format!(in alloc; "{TOO_DEEP}::?")?;
    let text = repeat_between(alloc, head.as_str(), "::a", 166, "")?;
    assert_prints_long(alloc, "_RNvB_1a", text.as_str())?;
    let end = format!(in alloc; "{TOO_DEEP}>")?;
    let text = repeat_between(alloc, "<", "&", 167, end.as_str())?;
    assert_prints_long(alloc, "_RMC0RB2_", text.as_str())?;
    Ok(())
}

#[test]
fn a_target_inside_a_long_name_meets_the_limit_of_depth() -> Result<(), Fail> {
    let rt = HostRuntime;
    let alloc = rt.alloc();
    let symbol = repeat_between(alloc, "_RIC100000", "R", 100_000, "B7_E")?;
    let end = format!(in alloc; "{TOO_DEEP}>")?;
    let arguments = repeat_between(alloc, "::<", "&", 497, end.as_str())?;
    let text = repeat_between(alloc, "", "R", 100_000, arguments.as_str())?;
    assert_prints_long(alloc, symbol.as_str(), text.as_str())?;
    let symbol = repeat_between(alloc, "RIC20tRYIMYNRYFG05_EB5_B_B6_", "R", 100, "B_E")?;
    assert!(try_demangle(symbol.as_str()).is_ok());
    for include_hash in [true, false] {
        let text = print_symbol(alloc, symbol.as_str(), include_hash)?;
        let text = String::from_utf8_lossy(alloc, text.as_slice())?;
        assert!(text.as_str().contains(TOO_DEEP));
    }
    Ok(())
}

#[test]
fn a_decoded_name_has_up_to_128_characters() -> Result<(), Fail> {
    let rt = HostRuntime;
    let alloc = rt.alloc();
    let longest = repeat_between(alloc, "_RCu131", "a", 127, "_ecn")?;
    let text = repeat_between(alloc, "", "a", 127, "ü")?;
    assert_prints(longest.as_str(), text.as_str(), text.as_str());
    let longer = repeat_between(alloc, "_RCu132", "a", 128, "_yfn")?;
    let text = repeat_between(alloc, "punycode{", "a", 128, "-yfn}")?;
    assert_prints(longer.as_str(), text.as_str(), text.as_str());
    Ok(())
}

/// Returns the lifetimes of a binder up to the one of this number, which is at least 26. The end of
/// the binder is left out.
fn lifetimes(alloc: Global, last: usize) -> Result<String, AllocError> {
    let mut text = String::new(alloc);
    text.push_str("<for<'a")?;
    for letter in 'b'..='z' {
        text.push_str(", '")?;
        text.push(letter)?;
    }
    for number in 26..=last {
        text.push_str(format!(in alloc; ", '_{number}")?.as_str())?;
    }
    Ok(text)
}

#[test]
fn lifetimes_are_printed_up_to_the_limit() -> Result<(), Fail> {
    let rt = HostRuntime;
    let alloc = rt.alloc();
    let lifetimes = lifetimes(alloc, 111_113)?;
    let text = format!(in alloc; "{lifetimes}, '_{MARKER}")?;
    assert_eq!(text.as_str().len(), 1_000_015);
    assert_prints_long(alloc, "_RMC0FGZZZ_Eu", text.as_str())?;
    assert_prints_long(alloc, "_RMC0FGZZZZZZZZZZ_Eu", text.as_str())?;
    let text = format!(in alloc; "{text}.x")?;
    assert_prints_long(alloc, "_RMC0FGZZZ_Eu.x", text.as_str())?;
    let refused = "_RMC0FGZZZZZZZZZZZ_Eu";
    assert_rejected(refused, refused);
    let text = format!(in alloc; "{lifetimes}, '_111114{MARKER}")?;
    assert_eq!(text.as_str().len(), 1_000_021);
    for include_hash in [true, false] {
        let mut output = Vec::new(alloc);
        let mut sink = WriteSink::new(&mut output);
        let result = demangle("_RMC0FGZZZ_Eu").write_limited(&mut sink, include_hash, 1_000_001);
        assert!(result.is_ok());
        assert!(output.as_slice() == text.as_bytes());
    }
    Ok(())
}

/// Returns a symbol of nested pairs. The second half of each pair is a back reference to the first.
fn pairs_symbol(alloc: Global, pairs: usize) -> Result<String, AllocError> {
    const DIGITS: &[u8] = b"0123456789abcdefghijklmnopqrstuvwxyz";
    let mut symbol = repeat_between(alloc, "_RMC0", "T", pairs, "p")?;
    for pair in 0..pairs {
        let digit = pairs.saturating_add(2).saturating_sub(pair);
        let digit = char::from(DIGITS.get(digit).copied().unwrap_or(b'_'));
        symbol.push_str(format!(in alloc; "B{digit}_E")?.as_str())?;
    }
    Ok(symbol)
}

/// Returns the text of such a symbol without a limit.
fn pairs_text(alloc: Global, pairs: usize) -> Result<String, AllocError> {
    let mut text = format!(in alloc; "_")?;
    for _ in 0..pairs {
        text = format!(in alloc; "({text}, {text})")?;
    }
    format!(in alloc; "<{text}>")
}

#[test]
fn pairs_of_pairs_are_printed() -> Result<(), Fail> {
    let rt = HostRuntime;
    let alloc = rt.alloc();
    let symbol = pairs_symbol(alloc, 6)?;
    assert_eq!(symbol.as_str(), "_RMC0TTTTTTpB8_EB7_EB6_EB5_EB4_EB3_E");
    for (pairs, len) in [(6, 318), (17, 655_358)] {
        let symbol = pairs_symbol(alloc, pairs)?;
        let text = pairs_text(alloc, pairs)?;
        assert_eq!(text.as_str().len(), len);
        assert_prints_long(alloc, symbol.as_str(), text.as_str())?;
    }
    Ok(())
}

#[test]
fn pairs_of_pairs_are_cut_at_the_limit() -> Result<(), Fail> {
    let rt = HostRuntime;
    let alloc = rt.alloc();
    let symbol = pairs_symbol(alloc, 18)?;
    let whole = pairs_text(alloc, 18)?;
    let kept = whole.as_str().get(..999_999).ok_or("shorter")?;
    assert!(kept.as_bytes().ends_with(b"_))))))".as_slice()));
    let text = format!(in alloc; "{kept}{MARKER}")?;
    assert_eq!(text.as_str().len(), 1_000_019);
    assert_prints_long(alloc, symbol.as_str(), text.as_str())?;
    Ok(())
}

#[test]
fn references_to_references_end_at_the_limit() -> Result<(), Fail> {
    let rt = HostRuntime;
    let symbol = "RYFG_FGyyEvRYFF_EvRYFFEvERLB_B_B_ERLRjB_B_B_";
    assert!(try_demangle(symbol).is_ok());
    for include_hash in [true, false] {
        let text = print_symbol(rt.alloc(), symbol, include_hash)?;
        assert!(text.ends_with(MARKER.as_bytes()));
    }
    Ok(())
}
