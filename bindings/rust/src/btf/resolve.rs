//! From a type to the one that its qualifiers, tags and typedefs stand for.

use super::{Btf, Type, TypeId};
use std::fmt;

/// Why [`Btf::resolve`] returns no type.
#[derive(Clone, Copy, Debug, PartialEq, Eq, Hash)]
pub enum ResolveError {
    /// The file has no type with this ID.
    NoSuchType(TypeId),
    /// The chain of types from this ID is a cycle, as that of a `const` of itself is.
    Cycle(TypeId),
}

impl fmt::Display for ResolveError {
    fn fmt(&self, f: &mut fmt::Formatter<'_>) -> fmt::Result {
        match self {
            ResolveError::NoSuchType(id) => write!(f, "there is no type {id}"),
            ResolveError::Cycle(id) => write!(f, "the chain of types from {id} is a cycle"),
        }
    }
}

impl std::error::Error for ResolveError {}

/// What a qualifier, a type tag or a typedef refers to.
fn aliased(it: &Type<'_>) -> Option<TypeId> {
    match *it {
        Type::Typedef { target, .. }
        | Type::Volatile { target }
        | Type::Const { target }
        | Type::Restrict { target }
        | Type::TypeTag { target, .. } => Some(target),
        _ => None,
    }
}

impl<'a> Btf<'a> {
    /// Follows VOLATILE, CONST, RESTRICT, TYPEDEF and TYPE_TAG, and returns the first type of
    /// another kind, which can be void.
    ///
    /// # Errors
    ///
    /// [`ResolveError::NoSuchType`] if there is no type with this ID. [`ResolveError::Cycle`] if
    /// the chain of types is a cycle: the format doesn't forbid it, and [`Btf::decode`] accepts it.
    ///
    /// ```
    /// # use bpfcanon::btf::{Btf, ResolveError, Type, TypeId};
    /// // a const of void, and a volatile of itself
    /// let file = b"\x9f\xeb\x01\0\x18\0\0\0\0\0\0\0\x18\0\0\0\x18\0\0\0\x01\0\0\0\
    ///     \0\0\0\0\0\0\0\x0a\0\0\0\0\0\0\0\0\0\0\0\x09\x02\0\0\0\0";
    /// let btf = Btf::decode(file)?;
    /// assert_eq!(btf.resolve(TypeId(1)), Ok((TypeId::VOID, Type::Void)));
    /// assert_eq!(btf.resolve(TypeId(2)), Err(ResolveError::Cycle(TypeId(2))));
    /// # Ok::<(), bpfcanon::btf::Error>(())
    /// ```
    pub fn resolve(&self, id: TypeId) -> Result<(TypeId, Type<'a>), ResolveError> {
        let mut at = id;
        // In a cycle the walk returns to a type where it has been. It remembers one, and a later
        // one after twice as many steps, so that even a file of many cycles is read quickly.
        let (mut seen, mut steps, mut limit) = (id, 0, 1);
        loop {
            let it = self.get(at).ok_or(ResolveError::NoSuchType(at))?;
            let target = match aliased(&it) {
                Some(target) => target,
                None => return Ok((at, it)),
            };
            if target == seen {
                return Err(ResolveError::Cycle(id));
            }
            at = target;
            steps += 1;
            if steps == limit {
                (seen, steps, limit) = (at, 0, 2 * limit);
            }
        }
    }
}
