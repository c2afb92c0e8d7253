//! Orders of values.
use super::*;
use crate::checks::{same, same_at};

/// Contents that ascend with their headers: fewer octets have the smaller length.
const ASCENDING: [&[u8]; 6] = [
    &[],
    &[0x00],
    &[0xFF],
    &[0x00, 0x00],
    &[0x00, 0x01],
    &[0x01, 0x00],
];

#[test]
fn octet_strings_ascend(rt: HostRuntime) -> Result<(), Fail> {
    for i in 0..ASCENDING.len() {
        for j in 0..ASCENDING.len() {
            let (this, that) = (borrowed(ASCENDING[i])?, borrowed(ASCENDING[j])?);
            same_at(&rt, i, this.der_cmp(&that), Ok(i.cmp(&j)));
            same_at(
                &rt,
                j,
                EncodeValueRef(&this).der_cmp(&EncodeValueRef(&that)),
                Ok(i.cmp(&j)),
            );
        }
    }
    Ok(())
}

#[test]
fn octets_alone_have_no_header(rt: HostRuntime) -> Result<(), Fail> {
    let (ff, zeros) = (BytesRef::new(&[0xFF])?, BytesRef::new(&[0x00, 0x00])?);
    same(&rt, ff.der_cmp(&zeros), Ok(Ordering::Greater));
    same(&rt, zeros.der_cmp(&ff), Ok(Ordering::Less));
    same(&rt, BytesRef::EMPTY.der_cmp(&zeros), Ok(Ordering::Less));
    same(&rt, ff.der_cmp(&ff), Ok(Ordering::Equal));
    let owned_ff = BytesOwned::from_ref(rt.alloc(), ff)?;
    let owned_zeros = BytesOwned::from_ref(rt.alloc(), zeros)?;
    same(&rt, owned_ff.der_cmp(&owned_zeros), Ok(Ordering::Greater));
    same(&rt, owned_zeros.der_cmp(&owned_ff), Ok(Ordering::Less));
    same(&rt, owned_ff.der_cmp(&owned_ff), Ok(Ordering::Equal));
    same(&rt, owned_ff.cmp(&owned_zeros), Ordering::Less);
    Ok(())
}

#[test]
fn joined_octets_are_compared_as_written(rt: HostRuntime) -> Result<(), Fail> {
    let ff = JoinedOctets {
        octets: BytesOwned::from_slice(rt.alloc(), &[0xFF])?,
    };
    let zeros = JoinedOctets {
        octets: BytesOwned::from_slice(rt.alloc(), &[0x00, 0x00])?,
    };
    let ones = JoinedOctets {
        octets: BytesOwned::from_slice(rt.alloc(), &[0x01, 0x01])?,
    };
    same(&rt, ff.der_cmp(&zeros), Ok(Ordering::Less));
    same(&rt, zeros.der_cmp(&ones), Ok(Ordering::Less));
    same(&rt, ones.der_cmp(&zeros), Ok(Ordering::Greater));
    same(&rt, ones.der_cmp(&ones), Ok(Ordering::Equal));
    Ok(())
}

// An owned text.
fn text(alloc: Global, octets: &[u8]) -> Result<OwnedText, Error> {
    let text = StringOwned::from_bytes(alloc, octets)?;
    Ok(OwnedText { text })
}

#[test]
fn texts_are_compared_by_length_first(rt: HostRuntime) -> Result<(), Fail> {
    let (b, aa, ab) = (
        text(rt.alloc(), &[0x62])?,
        text(rt.alloc(), &[0x61, 0x61])?,
        text(rt.alloc(), &[0x61, 0x62])?,
    );
    same(&rt, b.der_cmp(&aa), Ok(Ordering::Less));
    same(&rt, b.value_cmp(&aa), Ok(Ordering::Greater));
    same(&rt, ab.der_cmp(&aa), Ok(Ordering::Greater));
    same(&rt, aa.der_cmp(&aa), Ok(Ordering::Equal));
    Ok(())
}

#[test]
fn months_ascend(rt: HostRuntime) -> Result<(), Fail> {
    for i in 0..12u8 {
        for j in 0..12u8 {
            if let (Some(this), Some(that)) = (MyByteMonth::new(i), MyByteMonth::new(j)) {
                same_at(&rt, i, this.der_cmp(&that), Ok(i.cmp(&j)));
                let boxed = Box::new(rt.alloc(), this)?;
                same_at(
                    &rt,
                    j,
                    boxed.der_cmp(&Box::new(rt.alloc(), that)?),
                    Ok(i.cmp(&j)),
                );
            }
        }
    }
    Ok(())
}

#[test]
fn nothing_is_equal_to_nothing(rt: HostRuntime) {
    let nothing = PhantomData::<u8>;
    same(&rt, nothing.der_cmp(&nothing), Ok(Ordering::Equal));
    same(&rt, nothing.value_cmp(&nothing), Ok(Ordering::Equal));
}
