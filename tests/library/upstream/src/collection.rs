//! What the kinds of collections share. A link owns a place of its thread's table, which knows the link at each linked place.
//!
//! The module of a kind has a `Position`, which is `Copy` and has `NULL` and a member `at`, and functions on its list or tree and table:
//! `first`, `last`, `next`, `insert_after` and `pop_front`.

use std::ptr::NonNull;

/// The table of a thread: its links, the objects' links at the linked places, and the places of no object.
pub struct Field<Raw, Link> {
    pub links: Vec<Raw>,
    pub objects: Vec<Option<NonNull<Link>>>,
    pub vacant: Vec<u32>,
}

impl<Raw, Link> Field<Raw, Link> {
    pub const fn new() -> Self {
        Field { links: Vec::new(), objects: Vec::new(), vacant: Vec::new() }
    }
}

/// The link of a kind, and its place.
macro_rules! link {
    ($Ops:ident, $RawLink:ty) => {
        thread_local! {
            static FIELD: RefCell<Field<$RawLink, Link>> = const { RefCell::new(Field::new()) };
        }

        fn table<T>(f: impl FnOnce(&mut [$RawLink]) -> T) -> T {
            FIELD.with_borrow_mut(|field| f(&mut field.links))
        }

        pub struct Link {
            place: Cell<Option<u32>>,
        }

        impl Link {
            pub const fn new() -> Link {
                Link { place: Cell::new(None) }
            }

            pub fn is_linked(&self) -> bool {
                self.place.get().is_some_and(|place| table(|links| links[place as usize].is_linked()))
            }

            pub unsafe fn force_unlink(&self) {
                if let Some(place) = self.place.get() {
                    table(|links| links[place as usize] = <$RawLink>::UNLINKED);
                }
            }

            /// The place of this link, which is given one if it has none.
            fn place(&self) -> u32 {
                FIELD.with_borrow_mut(|field| {
                    let place = self.place.get().or_else(|| field.vacant.pop()).unwrap_or(field.links.len() as u32);
                    if place as usize == field.links.len() {
                        field.links.push(<$RawLink>::UNLINKED);
                        field.objects.push(None);
                    }
                    self.place.set(Some(place));
                    if !field.links[place as usize].is_linked() {
                        field.objects[place as usize] = Some(NonNull::from(self));
                    }
                    place
                })
            }
        }

        impl Drop for Link {
            fn drop(&mut self) {
                let Some(place) = self.place.get() else { return };
                let _ = FIELD.try_with(|field| {
                    let mut field = field.borrow_mut();
                    if !field.links[place as usize].is_linked() {
                        field.vacant.push(place);
                    }
                });
            }
        }

        impl Clone for Link {
            fn clone(&self) -> Link {
                Link::new()
            }
        }

        impl Default for Link {
            fn default() -> Link {
                Link::new()
            }
        }

        impl fmt::Debug for Link {
            fn fmt(&self, f: &mut fmt::Formatter<'_>) -> fmt::Result {
                f.write_str(if self.is_linked() { "linked" } else { "unlinked" })
            }
        }

        impl DefaultLinkOps for Link {
            type Ops = LinkOps;
            const NEW: LinkOps = LinkOps;
        }

        #[derive(Clone, Copy, Default)]
        pub struct LinkOps;

        unsafe impl link_ops::LinkOps for LinkOps {
            type LinkPtr = NonNull<Link>;

            unsafe fn acquire_link(&mut self, link: NonNull<Link>) -> bool {
                !link.as_ref().is_linked()
            }

            unsafe fn release_link(&mut self, link: NonNull<Link>) {
                link.as_ref().force_unlink()
            }
        }

        pub trait $Ops: link_ops::LinkOps<LinkPtr = NonNull<Link>> {}
        impl $Ops for LinkOps {}

        fn link_at(place: Option<u32>) -> Option<NonNull<Link>> {
            place.and_then(|place| FIELD.with_borrow(|field| field.objects[place as usize]))
        }
    };
}

/// The cursors of a kind.
macro_rules! cursors {
    ($List:ident, $Ops:ident) => {
        type Value<A> = <<A as Adapter>::PointerOps as PointerOps>::Value;
        type Pointer<A> = <<A as Adapter>::PointerOps as PointerOps>::Pointer;

        pub struct Cursor<'a, A: Adapter<LinkOps: $Ops>> {
            position: Position,
            list: &'a $List<A>,
        }

        impl<A: Adapter<LinkOps: $Ops>> Clone for Cursor<'_, A> {
            fn clone(&self) -> Self {
                Cursor { position: self.position, list: self.list }
            }
        }

        impl<'a, A: Adapter<LinkOps: $Ops>> Cursor<'a, A> {
            pub fn is_null(&self) -> bool {
                self.position.at.is_none()
            }

            pub fn get(&self) -> Option<&'a Value<A>> {
                self.list.value(self.position.at).map(|value| unsafe { &*value })
            }

            pub fn get_ptr(&self) -> Option<NonNull<Value<A>>> {
                self.list.value(self.position.at).and_then(|value| NonNull::new(value.cast_mut()))
            }

            pub fn clone_pointer(&self) -> Option<Pointer<A>>
            where
                Pointer<A>: Clone,
            {
                let value = self.list.value(self.position.at)?;
                Some(unsafe { crate::pointer_ops::clone_pointer_from_raw(self.list.adapter.pointer_ops(), value) })
            }

            pub fn move_next(&mut self) {
                self.position = table(|links| next(&self.list.raw, links, self.position));
            }

            pub fn peek_next(&self) -> Cursor<'_, A> {
                let mut cursor = self.clone();
                cursor.move_next();
                cursor
            }
        }

        pub struct CursorMut<'a, A: Adapter<LinkOps: $Ops>> {
            position: Position,
            list: &'a mut $List<A>,
        }

        impl<'a, A: Adapter<LinkOps: $Ops>> CursorMut<'a, A> {
            pub fn is_null(&self) -> bool {
                self.position.at.is_none()
            }

            pub fn get(&self) -> Option<&Value<A>> {
                self.list.value(self.position.at).map(|value| unsafe { &*value })
            }

            pub fn get_ptr(&self) -> Option<NonNull<Value<A>>> {
                self.as_cursor().get_ptr()
            }

            pub fn as_cursor(&self) -> Cursor<'_, A> {
                Cursor { position: self.position, list: self.list }
            }

            pub fn move_next(&mut self) {
                self.position = table(|links| next(&self.list.raw, links, self.position));
            }

            pub fn peek_next(&self) -> Cursor<'_, A> {
                let mut cursor = self.as_cursor();
                cursor.move_next();
                cursor
            }

            pub fn insert_after(&mut self, pointer: Pointer<A>) {
                let position = self.position;
                self.list.link(pointer, |raw, links, place| insert_after(raw, links, position, place));
            }

            pub fn into_ref(self) -> Option<&'a Value<A>> {
                self.list.value(self.position.at).map(|value| unsafe { &*value })
            }
        }

        pub struct CursorOwning<A: Adapter<LinkOps: $Ops>> {
            position: Position,
            list: $List<A>,
        }

        impl<A: Adapter<LinkOps: $Ops>> CursorOwning<A> {
            pub fn into_inner(self) -> $List<A> {
                self.list
            }

            pub fn as_cursor(&self) -> Cursor<'_, A> {
                Cursor { position: self.position, list: &self.list }
            }

            pub fn with_cursor_mut<T>(&mut self, f: impl FnOnce(&mut CursorMut<'_, A>) -> T) -> T {
                struct Back<'a, 'b, A: Adapter<LinkOps: $Ops>>(&'a mut Position, CursorMut<'b, A>);

                impl<A: Adapter<LinkOps: $Ops>> Drop for Back<'_, '_, A> {
                    fn drop(&mut self) {
                        *self.0 = self.1.position;
                    }
                }

                let cursor = CursorMut { position: self.position, list: &mut self.list };
                f(&mut Back(&mut self.position, cursor).1)
            }
        }
    };
}

/// The collection of a kind, which is a list or a tree, and its iterators. It is printed as a `debug_list` or a `debug_set`.
macro_rules! collection {
    ($List:ident, $Ops:ident, $RawList:ty, $RawLink:ty, $debug:ident) => {
        pub struct $List<A: Adapter<LinkOps: $Ops>> {
            raw: $RawList,
            adapter: A,
        }

        impl<A: Adapter<LinkOps: $Ops>> $List<A> {
            fn value(&self, place: Option<u32>) -> Option<*const Value<A>> {
                link_at(place).map(|link| unsafe { self.adapter.get_value(link) })
            }

            /// The place of an object of this list's type.
            unsafe fn place_of(&self, value: *const Value<A>) -> u32 {
                self.adapter.get_link(value).as_ref().place()
            }

            /// The pointer to what was linked at a place.
            fn pointer(&self, place: Option<u32>) -> Option<Pointer<A>> {
                self.value(place).map(|value| unsafe { self.adapter.pointer_ops().from_raw(value) })
            }

            /// Links the place of an object, which gets its pointer back if it is linked.
            fn link<T>(
                &mut self,
                pointer: Pointer<A>,
                call: impl FnOnce(&mut $RawList, &mut [$RawLink], u32) -> Result<T, Error>,
            ) -> T {
                let value = self.adapter.pointer_ops().into_raw(pointer);
                let place = unsafe { self.place_of(value) };
                table(|links| call(&mut self.raw, links, place)).unwrap_or_else(|error| {
                    drop(unsafe { self.adapter.pointer_ops().from_raw(value) });
                    panic!("{error}")
                })
            }

            pub const fn new(adapter: A) -> $List<A> {
                $List { raw: <$RawList>::new(), adapter }
            }

            pub fn is_empty(&self) -> bool {
                self.raw.is_empty()
            }

            pub fn cursor(&self) -> Cursor<'_, A> {
                Cursor { position: Position::NULL, list: self }
            }

            pub fn cursor_mut(&mut self) -> CursorMut<'_, A> {
                CursorMut { position: Position::NULL, list: self }
            }

            pub fn cursor_owning(self) -> CursorOwning<A> {
                CursorOwning { position: Position::NULL, list: self }
            }

            pub fn front(&self) -> Cursor<'_, A> {
                Cursor { position: table(|links| first(&self.raw, links)), list: self }
            }

            pub fn front_mut(&mut self) -> CursorMut<'_, A> {
                CursorMut { position: table(|links| first(&self.raw, links)), list: self }
            }

            pub fn front_owning(self) -> CursorOwning<A> {
                CursorOwning { position: table(|links| first(&self.raw, links)), list: self }
            }

            pub fn iter(&self) -> Iter<'_, A> {
                let (front, back) = table(|links| (first(&self.raw, links), last(&self.raw, links)));
                Iter { front, back, list: self }
            }

            /// The pointer to the first member, which is taken off.
            fn first_off(&mut self) -> Option<Pointer<A>> {
                let place = table(|links| pop_front(&mut self.raw, links)).unwrap();
                self.pointer(place)
            }

            pub fn clear(&mut self) {
                while self.first_off().is_some() {}
            }

            pub fn fast_clear(&mut self) {
                self.raw = <$RawList>::new();
            }

            pub fn take(&mut self) -> $List<A>
            where
                A: Clone,
            {
                $List { raw: self.raw.take(), adapter: self.adapter.clone() }
            }
        }

        impl<A: Adapter<LinkOps: $Ops>> Drop for $List<A> {
            fn drop(&mut self) {
                self.clear();
            }
        }

        impl<A: Adapter<LinkOps: $Ops> + Default> Default for $List<A> {
            fn default() -> $List<A> {
                $List::new(A::default())
            }
        }

        impl<A: Adapter<LinkOps: $Ops>> fmt::Debug for $List<A>
        where
            Value<A>: fmt::Debug,
        {
            fn fmt(&self, f: &mut fmt::Formatter<'_>) -> fmt::Result {
                f.$debug().entries(self.iter()).finish()
            }
        }

        impl<A: Adapter<LinkOps: $Ops>> IntoIterator for $List<A> {
            type Item = Pointer<A>;
            type IntoIter = IntoIter<A>;

            fn into_iter(self) -> IntoIter<A> {
                IntoIter { list: self }
            }
        }

        impl<'a, A: Adapter<LinkOps: $Ops>> IntoIterator for &'a $List<A> {
            type Item = &'a Value<A>;
            type IntoIter = Iter<'a, A>;

            fn into_iter(self) -> Iter<'a, A> {
                self.iter()
            }
        }

        pub struct Iter<'a, A: Adapter<LinkOps: $Ops>> {
            front: Position,
            back: Position,
            list: &'a $List<A>,
        }

        impl<A: Adapter<LinkOps: $Ops>> Clone for Iter<'_, A> {
            fn clone(&self) -> Self {
                Iter { front: self.front, back: self.back, list: self.list }
            }
        }

        impl<'a, A: Adapter<LinkOps: $Ops>> Iterator for Iter<'a, A> {
            type Item = &'a Value<A>;

            fn next(&mut self) -> Option<&'a Value<A>> {
                let value = self.list.value(self.front.at)?;
                if self.front.at == self.back.at {
                    (self.front, self.back) = (Position::NULL, Position::NULL);
                } else {
                    self.front = table(|links| next(&self.list.raw, links, self.front));
                }
                Some(unsafe { &*value })
            }
        }

        pub struct IntoIter<A: Adapter<LinkOps: $Ops>> {
            list: $List<A>,
        }

        impl<A: Adapter<LinkOps: $Ops>> Iterator for IntoIter<A> {
            type Item = Pointer<A>;

            fn next(&mut self) -> Option<Pointer<A>> {
                self.list.first_off()
            }
        }
    };
}

/// What only lists have. Their modules also have `splice_after` and `split_after`.
macro_rules! list {
    ($List:ident, $Ops:ident, $RawList:ty, $RawLink:ty) => {
        fn pop_front(list: &mut $RawList, links: &mut [$RawLink]) -> Result<Option<u32>, Error> {
            list.pop_front(links)
        }

        cursors!($List, $Ops);
        collection!($List, $Ops, $RawList, $RawLink, debug_list);

        impl<A: Adapter<LinkOps: $Ops>> $List<A> {
            pub fn push_front(&mut self, pointer: Pointer<A>) {
                self.link(pointer, |raw, links, place| raw.push_front(links, place));
            }

            pub fn pop_front(&mut self) -> Option<Pointer<A>> {
                self.first_off()
            }
        }

        impl<A: Adapter<LinkOps: $Ops>> CursorMut<'_, A> {
            pub fn splice_after(&mut self, mut list: $List<A>) {
                table(|links| splice_after(&mut self.list.raw, links, self.position, &mut list.raw)).unwrap();
            }

            pub fn split_after(&mut self) -> $List<A>
            where
                A: Clone,
            {
                let raw = table(|links| split_after(&mut self.list.raw, links, self.position)).unwrap();
                $List { raw, adapter: self.list.adapter.clone() }
            }
        }
    };
}

/// What a kind has whose cursors go both ways. Its module also has `prev` and `pop_back`, and `insert_before`, `remove` and `replace`,
/// which hand out where the cursor is then.
macro_rules! two_way {
    ($List:ident, $Ops:ident) => {
        impl<'a, A: Adapter<LinkOps: $Ops>> Cursor<'a, A> {
            pub fn move_prev(&mut self) {
                self.position = table(|links| prev(&self.list.raw, links, self.position));
            }

            pub fn peek_prev(&self) -> Cursor<'_, A> {
                let mut cursor = self.clone();
                cursor.move_prev();
                cursor
            }
        }

        impl<'a, A: Adapter<LinkOps: $Ops>> CursorMut<'a, A> {
            pub fn move_prev(&mut self) {
                self.position = table(|links| prev(&self.list.raw, links, self.position));
            }

            pub fn peek_prev(&self) -> Cursor<'_, A> {
                let mut cursor = self.as_cursor();
                cursor.move_prev();
                cursor
            }

            pub fn remove(&mut self) -> Option<Pointer<A>> {
                let at = self.position.at;
                at?;
                self.position = table(|links| remove(&mut self.list.raw, links, self.position)).unwrap();
                self.list.pointer(at)
            }

            pub fn replace_with(&mut self, pointer: Pointer<A>) -> Result<Pointer<A>, Pointer<A>> {
                let position = self.position;
                if position.at.is_none() {
                    return Err(pointer);
                }
                self.position = self.list.link(pointer, |raw, links, place| replace(raw, links, position, place));
                Ok(self.list.pointer(position.at).unwrap())
            }

            pub fn insert_before(&mut self, pointer: Pointer<A>) {
                let position = self.position;
                self.position = self.list.link(pointer, |raw, links, place| insert_before(raw, links, position, place));
            }
        }

        impl<A: Adapter<LinkOps: $Ops>> $List<A> {
            pub fn back(&self) -> Cursor<'_, A> {
                Cursor { position: table(|links| last(&self.raw, links)), list: self }
            }

            pub fn back_mut(&mut self) -> CursorMut<'_, A> {
                CursorMut { position: table(|links| last(&self.raw, links)), list: self }
            }

            pub fn back_owning(self) -> CursorOwning<A> {
                CursorOwning { position: table(|links| last(&self.raw, links)), list: self }
            }

            /// The pointer to the last member, which is taken off.
            fn last_off(&mut self) -> Option<Pointer<A>> {
                let place = table(|links| pop_back(&mut self.raw, links)).unwrap();
                self.pointer(place)
            }
        }

        impl<'a, A: Adapter<LinkOps: $Ops>> DoubleEndedIterator for Iter<'a, A> {
            fn next_back(&mut self) -> Option<&'a Value<A>> {
                let value = self.list.value(self.back.at)?;
                if self.front.at == self.back.at {
                    (self.front, self.back) = (Position::NULL, Position::NULL);
                } else {
                    self.back = table(|links| prev(&self.list.raw, links, self.back));
                }
                Some(unsafe { &*value })
            }
        }

        impl<A: Adapter<LinkOps: $Ops>> DoubleEndedIterator for IntoIter<A> {
            fn next_back(&mut self) -> Option<Pointer<A>> {
                self.list.last_off()
            }
        }
    };
}

/// What only lists have whose cursors go both ways. Their modules also have `splice_before` and `split_before`.
macro_rules! two_way_list {
    ($List:ident, $Ops:ident, $RawList:ty, $RawLink:ty) => {
        list!($List, $Ops, $RawList, $RawLink);
        two_way!($List, $Ops);

        fn pop_back(list: &mut $RawList, links: &mut [$RawLink]) -> Result<Option<u32>, Error> {
            list.pop_back(links)
        }

        impl<A: Adapter<LinkOps: $Ops>> $List<A> {
            pub fn push_back(&mut self, pointer: Pointer<A>) {
                self.link(pointer, |raw, links, place| raw.push_back(links, place));
            }

            pub fn pop_back(&mut self) -> Option<Pointer<A>> {
                self.last_off()
            }
        }

        impl<A: Adapter<LinkOps: $Ops>> CursorMut<'_, A> {
            pub fn splice_before(&mut self, mut list: $List<A>) {
                let position = self.position;
                self.position = table(|links| splice_before(&mut self.list.raw, links, position, &mut list.raw)).unwrap();
            }

            pub fn split_before(&mut self) -> $List<A>
            where
                A: Clone,
            {
                let (raw, position) = table(|links| split_before(&mut self.list.raw, links, self.position)).unwrap();
                self.position = position;
                $List { raw, adapter: self.list.adapter.clone() }
            }
        }
    };
}

/// Cursors from a pointer alone.
macro_rules! from_pointer {
    ($List:ident, $Ops:ident) => {
        impl<A: Adapter<LinkOps: $Ops>> $List<A> {
            pub unsafe fn cursor_from_ptr(&self, value: *const Value<A>) -> Cursor<'_, A> {
                Cursor { position: Position { at: Some(self.place_of(value)) }, list: self }
            }

            pub unsafe fn cursor_mut_from_ptr(&mut self, value: *const Value<A>) -> CursorMut<'_, A> {
                CursorMut { position: Position { at: Some(self.place_of(value)) }, list: self }
            }

            pub unsafe fn cursor_owning_from_ptr(self, value: *const Value<A>) -> CursorOwning<A> {
                CursorOwning { position: Position { at: Some(self.place_of(value)) }, list: self }
            }
        }
    };
}
