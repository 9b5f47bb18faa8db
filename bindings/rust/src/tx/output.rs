use super::Item;
use std::rc::Rc;
use std::sync::Arc;

/// What an [`atomically`](crate::Domain::atomically) closure may return.
///
/// Each [`Item`] in it becomes its value once the transaction has committed. The trait is implemented for `Item`; for
/// tuples, `Option`, `Result`, `Vec` and `Box` of outputs; and for the plain types of std. A type of one's own can
/// implement it:
///
/// ```
/// struct Ticket(u32);
///
/// impl yalwythen::Output for Ticket {
///     type Out = Ticket;
///
///     fn output(self) -> Ticket {
///         self
///     }
/// }
/// ```
pub trait Output {
    /// What `atomically` returns.
    type Out;

    /// Returns it. Called after the commit.
    fn output(self) -> Self::Out;
}

impl<T> Output for Item<T> {
    type Out = T;

    /// # Panics
    ///
    /// If a [`Peeked`](crate::Peeked) of the same value has left the closure.
    fn output(self) -> T {
        match Rc::try_unwrap(self.held) {
            Ok(held) => held.value,
            Err(_) => panic!("a `Peeked` was kept beyond its `atomically` closure"),
        }
    }
}

impl<T: Output> Output for Option<T> {
    type Out = Option<T::Out>;

    fn output(self) -> Self::Out {
        self.map(T::output)
    }
}

impl<T: Output, E: Output> Output for Result<T, E> {
    type Out = Result<T::Out, E::Out>;

    fn output(self) -> Self::Out {
        self.map(T::output).map_err(E::output)
    }
}

impl<T: Output> Output for Vec<T> {
    type Out = Vec<T::Out>;

    fn output(self) -> Self::Out {
        self.into_iter().map(T::output).collect()
    }
}

impl<T: Output> Output for Box<T> {
    type Out = Box<T::Out>;

    fn output(self) -> Self::Out {
        Box::new((*self).output())
    }
}

impl<T: Output, const N: usize> Output for [T; N] {
    type Out = [T::Out; N];

    fn output(self) -> Self::Out {
        self.map(T::output)
    }
}

macro_rules! tuples {
    ($($name:ident $place:tt),*) => {
        impl<$($name: Output),*> Output for ($($name,)*) {
            type Out = ($($name::Out,)*);

            fn output(self) -> Self::Out {
                ($(self.$place.output(),)*)
            }
        }
    };
}

tuples!(A 0);
tuples!(A 0, B 1);
tuples!(A 0, B 1, C 2);
tuples!(A 0, B 1, C 2, D 3);
tuples!(A 0, B 1, C 2, D 3, E 4);
tuples!(A 0, B 1, C 2, D 3, E 4, F 5);

macro_rules! plain {
    ($([$($generics:tt)*] $name:ty),* $(,)?) => {
        $(
            impl<$($generics)*> Output for $name {
                type Out = Self;

                fn output(self) -> Self {
                    self
                }
            }
        )*
    };
}

plain!(
    [] (), [] bool, [] char, [] f32, [] f64, [] i8, [] i16, [] i32, [] i64, [] i128, [] isize, [] u8, [] u16, [] u32,
    [] u64, [] u128, [] usize, [] String, [] std::time::Duration, [] std::time::Instant, [] std::cmp::Ordering,
    [T: ?Sized] Arc<T>, ['a, T: ?Sized] &'a T, [T: ?Sized] std::marker::PhantomData<T>,
);
