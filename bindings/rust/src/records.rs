//! The records of `bpfcanon.h`, and the numbers in them.

/// A field of a value, which is one field of a record, or several, with the numbers `N`.
pub(crate) trait Field<N>: Sized {
    /// The value of these numbers; none if it isn't known.
    fn of(numbers: N) -> Option<Self>;
    /// The numbers of the value.
    fn numbers(self) -> N;
}

/// A number is itself.
impl<N> Field<N> for N {
    fn of(number: N) -> Option<N> {
        Some(number)
    }

    fn numbers(self) -> N {
        self
    }
}

/// Declares an enum by its variants and their numbers in records.
macro_rules! numbered {
    ($(#[$about:meta])* $name:ident { $($(#[$doc:meta])* $variant:ident = $number:tt,)+ }) => {
        $(#[$about])*
        #[derive(Clone, Copy, Debug, PartialEq, Eq, PartialOrd, Ord, Hash)]
        pub enum $name {
            $($(#[$doc])* $variant = $number as isize,)+
        }

        impl $crate::records::Field<u8> for $name {
            fn of(number: u8) -> Option<$name> {
                match u32::from(number) {
                    $($number => Some($name::$variant),)+
                    _ => None,
                }
            }

            fn numbers(self) -> u8 {
                self as u8
            }
        }
    };
}
pub(crate) use numbered;

#[cfg(test)]
mod tests {
    use crate::sys::*;

    /// A newer library may return such records.
    #[test]
    fn records_with_unknown_numbers_have_no_value() {
        let insn = |form, bits, op| bpfcanon_insn { form, bits, op, ..Default::default() }.insn();
        // A width, two operations and two forms that there aren't.
        assert!(insn(1, 64, 12).is_some());
        for (form, bits, op) in [(1, 16, 12), (1, 64, 8), (17, 64, 7), (0, 0, 0), (20, 0, 0)] {
            assert_eq!(insn(form, bits, op), None, "{form} {bits} {op}");
        }
        let is_known = |kind, encoding, linkage| {
            bpfcanon_btf_type { kind, encoding, linkage, ..Default::default() }.is_known()
        };
        assert!((1..=19).all(|kind| is_known(kind, 4, 2)));
        assert!(
            !is_known(1, 3, 0) && !is_known(14, 0, 3) && !is_known(0, 0, 0) && !is_known(20, 0, 0)
        );
        let items =
            (0..7).filter(|it| bpfcanon_btf_item { kind: *it, ..Default::default() }.is_known());
        assert_eq!(items.collect::<Vec<_>>(), [1, 2, 3, 4, 5]);
    }
}
