use super::Steps;
use crate::inner::Inner;
use crate::shared::Shared;
use std::sync::Arc;

macro_rules! tuple {
    ($($steps:ident $place:tt),*) => {
        impl<$($steps: Steps),*> Steps for ($($steps,)*) {
            type Replies = ($($steps::Replies,)*);

            fn put(&mut self, shared: &mut Shared) {
                $(self.$place.put(shared);)*
            }

            fn committed(&mut self, shared: &mut Shared) -> Self::Replies {
                ($(self.$place.committed(shared),)*)
            }

            fn back(&mut self, shared: &mut Shared) {
                $(self.$place.back(shared);)*
            }

            fn is_of(&self, inner: &Arc<Inner>) -> bool {
                $(self.$place.is_of(inner) &&)* true
            }

            fn inner(&self) -> Option<&Arc<Inner>> {
                self.0.inner()
            }
        }
    };
}

tuple!(A 0);
tuple!(A 0, B 1);
tuple!(A 0, B 1, C 2);
tuple!(A 0, B 1, C 2, D 3);
tuple!(A 0, B 1, C 2, D 3, E 4);
tuple!(A 0, B 1, C 2, D 3, E 4, F 5);
tuple!(A 0, B 1, C 2, D 3, E 4, F 5, G 6);
tuple!(A 0, B 1, C 2, D 3, E 4, F 5, G 6, H 7);
