//! Views and stores, once for both widths.

use crate::{sys, Chars, Filled, Refusal, Windows};

macro_rules! width {
    ($(#[$doc:meta])* $name:ident { $($call:ident = $sys:ident),* $(,)? }) => {
        $(#[$doc])*
        pub mod $name {
            use crate::words::joined;
            use crate::{Chars, Filled, Part, Pushed, Refusal, Shape};
            use std::cmp::Ordering;

            mod call {
                $(pub(super) use crate::sys::$sys as $call;)*
            }

            /// The bytes of a store, or of a reverse complement, of n characters: the 48 behind, no part of the length, included.
            pub fn room(n: Chars) -> usize {
                // SAFETY: it takes a number.
                unsafe { call::room(n.0) }
            }

            /// The numbers of a stream over `len` characters; [`lanes_room`](crate::lanes_room) of its steps is a buffer's room.
            ///
            /// The context is how many characters the windows have that are wanted of the stream: each of them begins in one lane
            /// and ends within its steps. The factor is 1, or 2 over bases for the lanes that 1 gives over flags.
            ///
            /// Refused: `BadStream` for a context outside 1 to 2^31 or a factor other than 1 and 2.
            pub fn shape(len: Chars, context: Chars, factor: usize) -> Result<Shape, Refusal> {
                let (mut lane, mut steps, mut padding) = (0, 0, 0);
                // SAFETY: the numbers behind the pointers are ours.
                let number = unsafe {
                    call::shape(len.0, context.0, factor, &mut lane, &mut steps, &mut padding)
                };
                Refusal::check(number).map(|()| Shape {
                    lane: Chars(lane),
                    steps,
                    padding: Chars(padding),
                })
            }

            /// Bytes, an offset and a length held together. 48 bytes are lent behind the last character, because the calls may read
            /// them; bits outside the view count for nothing.
            ///
            /// Every call on a view is refused where [`View::new`] would be, with `TooLong` or `BadView`, before what it names.
            #[derive(Clone, Copy, Debug)]
            pub struct View<'a> {
                bytes: &'a [u8],
                offset: Chars,
                len: Chars,
            }

            impl<'a> View<'a> {
                /// A view that is accepted.
                ///
                /// Refused: `TooLong` for more than 2^28 bytes; `BadView` for an offset, a length and 48 bytes behind that exceed them.
                pub fn new(bytes: &'a [u8], offset: Chars, len: Chars) -> Result<Self, Refusal> {
                    let asked = View::unasked(bytes, offset, len);
                    asked.part(|b, n, at, size, o, l| {
                        // SAFETY: the slice's own pointer and length; the numbers behind the pointers are `part`'s.
                        unsafe { call::view(b, n, offset.0, len.0, at, size, o, l) }
                    })
                }

                /// The same, not asked for: where it is not accepted, every call on it is refused.
                pub fn unasked(bytes: &'a [u8], offset: Chars, len: Chars) -> Self {
                    View { bytes, offset, len }
                }

                /// The bytes lent to it.
                pub fn bytes(self) -> &'a [u8] {
                    self.bytes
                }

                /// Where it begins in them.
                pub fn offset(self) -> Chars {
                    self.offset
                }

                /// Its length.
                pub fn len(self) -> Chars {
                    self.len
                }

                /// Whether it has no character.
                pub fn is_empty(self) -> bool {
                    self.len == Chars(0)
                }

                fn at(self, part: Part) -> Self {
                    View::unasked(
                        &self.bytes[part.at..part.at + part.size],
                        part.offset,
                        part.len,
                    )
                }

                fn part(
                    self,
                    ask: impl FnOnce(
                        *const u8,
                        usize,
                        &mut usize,
                        &mut usize,
                        &mut usize,
                        &mut usize,
                    ) -> u32,
                ) -> Result<Self, Refusal> {
                    let (mut at, mut size, mut offset, mut len) = (0, 0, 0, 0);
                    let (b, n) = (self.bytes.as_ptr(), self.bytes.len());
                    Refusal::check(ask(b, n, &mut at, &mut size, &mut offset, &mut len))?;
                    Ok(self.at(Part {
                        at,
                        size,
                        offset: Chars(offset),
                        len: Chars(len),
                    }))
                }

                /// The characters from `start` up to `end`, in the same bytes.
                ///
                /// Refused: `BadRange` for an end beyond the length or a start after its end.
                pub fn slice(self, start: Chars, end: Chars) -> Result<Self, Refusal> {
                    self.part(|b, n, at, size, o, l| {
                        // SAFETY: as in `new`.
                        unsafe {
                            call::slice(
                                b, n, self.offset.0, self.len.0, start.0, end.0, at, size, o, l,
                            )
                        }
                    })
                }

                /// The same characters in the fewest bytes, the 48 behind among them. Refused: as every call on a view.
                pub fn normalise(self) -> Result<Self, Refusal> {
                    self.part(|b, n, at, size, o, l| {
                        // SAFETY: as in `new`.
                        unsafe { call::normalise(b, n, self.offset.0, self.len.0, at, size, o, l) }
                    })
                }

                /// Character i. Refused: `BadRange` for i not below the length.
                pub fn get(self, i: Chars) -> Result<u8, Refusal> {
                    let mut code = 0;
                    let (b, n) = (self.bytes.as_ptr(), self.bytes.len());
                    // SAFETY: the slice's own pointer and length, as below.
                    let number =
                        unsafe { call::get(b, n, self.offset.0, self.len.0, i.0, &mut code) };
                    Refusal::check(number).map(|()| code)
                }

                /// Character i of the characters from `start` up to `end`.
                ///
                /// Refused: `BadRange` where [`View::slice`] is, and for i not below `end - start`.
                pub fn get_sliced(self, start: Chars, end: Chars, i: Chars) -> Result<u8, Refusal> {
                    let mut code = 0;
                    let (b, n) = (self.bytes.as_ptr(), self.bytes.len());
                    // SAFETY: the slice's own pointer and length.
                    let number = unsafe {
                        call::get_sliced(
                            b, n, self.offset.0, self.len.0, start.0, end.0, i.0, &mut code,
                        )
                    };
                    Refusal::check(number).map(|()| code)
                }

                fn word(
                    self,
                    ask: unsafe extern "C" fn(*const u8, usize, usize, usize, &mut u64) -> u32,
                ) -> Result<u64, Refusal> {
                    let mut word = 0;
                    let (b, n) = (self.bytes.as_ptr(), self.bytes.len());
                    // SAFETY: the slice's own pointer and length.
                    let number = unsafe { ask(b, n, self.offset.0, self.len.0, &mut word) };
                    Refusal::check(number).map(|()| word)
                }

                fn word_u128(
                    self,
                    ask: unsafe extern "C" fn(
                        *const u8,
                        usize,
                        usize,
                        usize,
                        &mut u64,
                        &mut u64,
                    ) -> u32,
                ) -> Result<u128, Refusal> {
                    let (mut low, mut high) = (0, 0);
                    let (b, n) = (self.bytes.as_ptr(), self.bytes.len());
                    // SAFETY: the slice's own pointer and length.
                    let number =
                        unsafe { ask(b, n, self.offset.0, self.len.0, &mut low, &mut high) };
                    Refusal::check(number).map(|()| joined(low, high))
                }

                /// Its word. Refused: `BadWord` for more than 32 bases or 64 flags.
                pub fn as_u64(self) -> Result<u64, Refusal> {
                    self.word(call::as_u64)
                }

                /// Its word in 128 bits. Refused: `BadWord` for more than 64 bases or 128 flags.
                pub fn as_u128(self) -> Result<u128, Refusal> {
                    self.word_u128(call::as_u128)
                }

                /// The word of its reverse complement; flags are reversed only.
                ///
                /// Refused: `BadWord` for no character, or more than 32 bases or 64 flags.
                pub fn revcomp_as_u64(self) -> Result<u64, Refusal> {
                    self.word(call::revcomp_as_u64)
                }

                /// The same in 128 bits. Refused: `BadWord` for no character, or more than 64 bases or 128 flags.
                pub fn revcomp_as_u128(self) -> Result<u128, Refusal> {
                    self.word_u128(call::revcomp_as_u128)
                }

                /// Its reverse complement, written to the front of a buffer, 48 zeros behind; later bytes stay. Flags are reversed only.
                ///
                /// Refused: `NoRoom` for a buffer under [`room`] of the length.
                pub fn to_revcomp(self, out: &mut [u8]) -> Result<View<'_>, Refusal> {
                    let (b, n) = (self.bytes.as_ptr(), self.bytes.len());
                    // SAFETY: the slices' own pointers and lengths; `out` is borrowed apart.
                    let number = unsafe {
                        call::to_revcomp(
                            b, n, self.offset.0, self.len.0, out.as_mut_ptr(), out.len(),
                        )
                    };
                    Refusal::check(number).map(|()| View::unasked(out, Chars(0), self.len))
                }

                /// The order, and how many leading characters are equal. The first differing character decides, by its code, else the
                /// shorter is first; the order is `Equal` exactly if both have the same characters.
                ///
                /// Refused: as every call on a view, of either.
                pub fn compare(self, b: View<'_>) -> Result<(Ordering, Chars), Refusal> {
                    let (mut order, mut common) = (0, 0);
                    // SAFETY: the slices' own pointers and lengths, as in the two below.
                    let number = unsafe {
                        call::compare(
                            self.bytes.as_ptr(), self.bytes.len(), self.offset.0, self.len.0,
                            b.bytes.as_ptr(), b.bytes.len(), b.offset.0, b.len.0,
                            &mut order, &mut common,
                        )
                    };
                    Refusal::check(number).map(|()| (order.cmp(&0), Chars(common)))
                }

                /// The least place where a pattern stands in it; the empty one stands at 0. Refused: as every call on a view, of either.
                pub fn find(self, pattern: View<'_>) -> Result<Option<Chars>, Refusal> {
                    let (mut there, mut place) = (false, 0);
                    // SAFETY: as in `compare`.
                    let number = unsafe {
                        call::find(
                            self.bytes.as_ptr(), self.bytes.len(), self.offset.0, self.len.0,
                            pattern.bytes.as_ptr(), pattern.bytes.len(), pattern.offset.0, pattern.len.0,
                            &mut there, &mut place,
                        )
                    };
                    Refusal::check(number).map(|()| there.then_some(Chars(place)))
                }

                /// Whichever comes first, normalised; at a tie, this one. Refused: as every call on a view, of either.
                pub fn least(self, b: View<'a>) -> Result<View<'a>, Refusal> {
                    let mut second = false;
                    let (mut at, mut size, mut offset, mut len) = (0, 0, 0, 0);
                    // SAFETY: as in `compare`.
                    let number = unsafe {
                        call::least(
                            self.bytes.as_ptr(), self.bytes.len(), self.offset.0, self.len.0,
                            b.bytes.as_ptr(), b.bytes.len(), b.offset.0, b.len.0,
                            &mut second, &mut at, &mut size, &mut offset, &mut len,
                        )
                    };
                    Refusal::check(number)?;
                    let chosen = if second { b } else { self };
                    Ok(chosen.at(Part {
                        at,
                        size,
                        offset: Chars(offset),
                        len: Chars(len),
                    }))
                }

                /// All steps of a stream: step j, lane l at entry 8 j + l; later entries stay.
                ///
                /// Refused: `BadStream` where [`shape`] is; `NoRoom` for a buffer under [`lanes_room`](crate::lanes_room) of its steps.
                pub fn fill(
                    self,
                    context: Chars,
                    factor: usize,
                    out: &mut [u32],
                ) -> Result<Filled, Refusal> {
                    let (mut steps, mut padding) = (0, 0);
                    // SAFETY: the slices' own pointers and lengths, each borrowed apart, as below.
                    let number = unsafe {
                        call::fill(
                            self.bytes.as_ptr(), self.bytes.len(), self.offset.0, self.len.0,
                            context.0, factor, out.as_mut_ptr(), out.len(),
                            &mut steps, &mut padding,
                        )
                    };
                    Refusal::check(number).map(|()| Filled { steps, padding: Chars(padding) })
                }

                /// The same, and a buffer for a delay: step j has there the character of step j - `delay`, which leaves a window of so many
                /// where the other enters it.
                ///
                /// Refused: as [`View::fill`], either buffer; `BadStream` also for a delay above 2^31.
                pub fn fill_delayed(
                    self,
                    context: Chars,
                    factor: usize,
                    delay: Chars,
                    out: &mut [u32],
                    delayed: &mut [u32],
                ) -> Result<Filled, Refusal> {
                    let (mut steps, mut padding) = (0, 0);
                    // SAFETY: as in `fill`.
                    let number = unsafe {
                        call::fill_delayed(
                            self.bytes.as_ptr(), self.bytes.len(), self.offset.0, self.len.0,
                            context.0, factor, delay.0, out.as_mut_ptr(), out.len(),
                            delayed.as_mut_ptr(), delayed.len(), &mut steps, &mut padding,
                        )
                    };
                    Refusal::check(number).map(|()| Filled { steps, padding: Chars(padding) })
                }

                /// The same, and a buffer for each of two delays.
                ///
                /// Refused: as [`View::fill_delayed`], any buffer, either delay; `BadStream` also for a first delay above the second.
                pub fn fill_delayed_2(
                    self,
                    context: Chars,
                    factor: usize,
                    delays: [Chars; 2],
                    out: &mut [u32],
                    first: &mut [u32],
                    second: &mut [u32],
                ) -> Result<Filled, Refusal> {
                    let (mut steps, mut padding) = (0, 0);
                    // SAFETY: as in `fill`.
                    let number = unsafe {
                        call::fill_delayed_2(
                            self.bytes.as_ptr(), self.bytes.len(), self.offset.0, self.len.0,
                            context.0, factor, delays[0].0, delays[1].0,
                            out.as_mut_ptr(), out.len(), first.as_mut_ptr(), first.len(),
                            second.as_mut_ptr(), second.len(), &mut steps, &mut padding,
                        )
                    };
                    Refusal::check(number).map(|()| Filled { steps, padding: Chars(padding) })
                }

                /// The eight lanes of step j. Refused: `BadStream` where [`shape`] is, and for j at or past its steps.
                pub fn step(
                    self,
                    context: Chars,
                    factor: usize,
                    j: usize,
                ) -> Result<[u32; 8], Refusal> {
                    let mut lanes = [0; 8];
                    // SAFETY: the slice's own pointer and length, as below.
                    let number = unsafe {
                        call::step(
                            self.bytes.as_ptr(), self.bytes.len(), self.offset.0, self.len.0,
                            context.0, factor, j, &mut lanes,
                        )
                    };
                    Refusal::check(number).map(|()| lanes)
                }

                /// The same, and those of a delay. Refused: as [`View::step`]; `BadStream` also for a delay above 2^31.
                pub fn step_delayed(
                    self,
                    context: Chars,
                    factor: usize,
                    delay: Chars,
                    j: usize,
                ) -> Result<[[u32; 8]; 2], Refusal> {
                    let (mut lanes, mut delayed) = ([0; 8], [0; 8]);
                    // SAFETY: as in `step`.
                    let number = unsafe {
                        call::step_delayed(
                            self.bytes.as_ptr(), self.bytes.len(), self.offset.0, self.len.0,
                            context.0, factor, delay.0, j, &mut lanes, &mut delayed,
                        )
                    };
                    Refusal::check(number).map(|()| [lanes, delayed])
                }

                /// The same, and those of two delays.
                ///
                /// Refused: as [`View::step_delayed`], either delay; `BadStream` also for a first delay above the second.
                pub fn step_delayed_2(
                    self,
                    context: Chars,
                    factor: usize,
                    delays: [Chars; 2],
                    j: usize,
                ) -> Result<[[u32; 8]; 3], Refusal> {
                    let (mut lanes, mut first, mut second) = ([0; 8], [0; 8], [0; 8]);
                    // SAFETY: as in `step`.
                    let number = unsafe {
                        call::step_delayed_2(
                            self.bytes.as_ptr(), self.bytes.len(), self.offset.0, self.len.0,
                            context.0, factor, delays[0].0, delays[1].0, j,
                            &mut lanes, &mut first, &mut second,
                        )
                    };
                    Refusal::check(number).map(|()| [lanes, first, second])
                }
            }

            /// A lent buffer and a length in characters; 48 bytes stand behind the last one, no part of the length.
            ///
            /// Every call on a store is refused with `TooLong` for a buffer of more than 2^28 bytes, and with `BadStore` where the
            /// bytes of the length and 48 more exceed it, before what it names. Refused, the store stays what it was.
            ///
            /// Letters may be any bytes. Of bases N becomes G and a line feed C: push the same letters to a store of flags, which
            /// marks them, and take line ends off before.
            #[derive(Debug)]
            pub struct Store<'a> {
                buffer: &'a mut [u8],
                len: Chars,
            }

            impl<'a> Store<'a> {
                /// Makes a buffer an empty store: writes 48 zeros. Refused: `TooLong`; `NoRoom` for a buffer under 48 bytes.
                pub fn clear(buffer: &'a mut [u8]) -> Result<Self, Refusal> {
                    let mut len = 0;
                    // SAFETY: the slice's own pointer and length.
                    let number = unsafe { call::clear(buffer.as_mut_ptr(), buffer.len(), &mut len) };
                    Refusal::check(number).map(|()| Store { buffer, len: Chars(len) })
                }

                /// A buffer that holds a store of this length; where it does not, every call on it is refused.
                pub fn again(buffer: &'a mut [u8], len: Chars) -> Self {
                    Store { buffer, len }
                }

                /// Its length.
                pub fn len(&self) -> Chars {
                    self.len
                }

                /// Whether it has no character.
                pub fn is_empty(&self) -> bool {
                    self.len == Chars(0)
                }

                /// The lent buffer.
                pub fn bytes(&self) -> &[u8] {
                    self.buffer
                }

                /// All its characters.
                pub fn view(&self) -> View<'_> {
                    View::unasked(self.buffer, Chars(0), self.len)
                }

                /// Puts the codes, or the flags, of letters at the end. Writes from the byte of the old length to the 48 zeros behind.
                ///
                /// Refused: `NoRoom` for a buffer under [`room`] of the new length.
                pub fn push_ascii(&mut self, letters: &[u8]) -> Result<Pushed, Refusal> {
                    let (mut start, mut end) = (0, 0);
                    // SAFETY: the slices' own pointers and lengths, borrowed apart, as below.
                    let number = unsafe {
                        call::push_ascii(
                            self.buffer.as_mut_ptr(), self.buffer.len(), &mut self.len.0,
                            letters.as_ptr(), letters.len(), &mut start, &mut end,
                        )
                    };
                    Pushed::check(number, start, end, self.len)
                }

                /// Puts a view behind, in a byte of its own, at its offset's place there. The gap before it, which an empty view makes
                /// too, is filled with A, or with set flags.
                ///
                /// Refused: what [`View::new`] refuses of the view; `NoRoom` for a buffer under [`room`] of the new length.
                pub fn push_seq(&mut self, view: View<'_>) -> Result<Pushed, Refusal> {
                    let (mut start, mut end) = (0, 0);
                    // SAFETY: as in `push_ascii`.
                    let number = unsafe {
                        call::push_seq(
                            self.buffer.as_mut_ptr(), self.buffer.len(), &mut self.len.0,
                            view.bytes.as_ptr(), view.bytes.len(), view.offset.0, view.len.0,
                            &mut start, &mut end,
                        )
                    };
                    Pushed::check(number, start, end, self.len)
                }

                /// Puts the codes, or the flags, of letters over the characters from `start` on; every other bit stays.
                ///
                /// Refused: `BadRange` where they end beyond the length.
                pub fn overwrite(&mut self, start: Chars, letters: &[u8]) -> Result<(), Refusal> {
                    // SAFETY: as in `push_ascii`.
                    Refusal::check(unsafe {
                        call::overwrite(
                            self.buffer.as_mut_ptr(), self.buffer.len(), &mut self.len.0,
                            start.0, letters.as_ptr(), letters.len(),
                        )
                    })
                }

                /// Leaves the first m characters, with 48 zeros behind. Refused: `BadRange` for m above the length.
                pub fn cut(&mut self, m: Chars) -> Result<(), Refusal> {
                    // SAFETY: the slice's own pointer and length.
                    Refusal::check(unsafe {
                        call::cut(self.buffer.as_mut_ptr(), self.buffer.len(), &mut self.len.0, m.0)
                    })
                }
            }
        }
    };
}

width! {
    /// Two-bit bases: A 0, C 1, T 2, G 3; four to a byte.
    bases {
        room = tsiv_bases_room,
        view = tsiv_bases_view,
        slice = tsiv_bases_slice,
        normalise = tsiv_bases_normalise,
        get = tsiv_bases_get,
        get_sliced = tsiv_bases_get_sliced,
        as_u64 = tsiv_bases_as_u64,
        as_u128 = tsiv_bases_as_u128,
        revcomp_as_u64 = tsiv_bases_revcomp_as_u64,
        revcomp_as_u128 = tsiv_bases_revcomp_as_u128,
        to_revcomp = tsiv_bases_to_revcomp,
        compare = tsiv_bases_compare,
        find = tsiv_bases_find,
        least = tsiv_bases_least,
        clear = tsiv_bases_clear,
        push_ascii = tsiv_bases_push_ascii,
        push_seq = tsiv_bases_push_seq,
        overwrite = tsiv_bases_overwrite,
        cut = tsiv_bases_cut,
        shape = tsiv_bases_shape,
        fill = tsiv_bases_fill,
        fill_delayed = tsiv_bases_fill_delayed,
        fill_delayed_2 = tsiv_bases_fill_delayed_2,
        step = tsiv_bases_step,
        step_delayed = tsiv_bases_step_delayed,
        step_delayed_2 = tsiv_bases_step_delayed_2,
    }
}

width! {
    /// One-bit flags: 0 clear, 1 ambiguous; eight to a byte.
    flags {
        room = tsiv_flags_room,
        view = tsiv_flags_view,
        slice = tsiv_flags_slice,
        normalise = tsiv_flags_normalise,
        get = tsiv_flags_get,
        get_sliced = tsiv_flags_get_sliced,
        as_u64 = tsiv_flags_as_u64,
        as_u128 = tsiv_flags_as_u128,
        revcomp_as_u64 = tsiv_flags_revcomp_as_u64,
        revcomp_as_u128 = tsiv_flags_revcomp_as_u128,
        to_revcomp = tsiv_flags_to_revcomp,
        compare = tsiv_flags_compare,
        find = tsiv_flags_find,
        least = tsiv_flags_least,
        clear = tsiv_flags_clear,
        push_ascii = tsiv_flags_push_ascii,
        push_seq = tsiv_flags_push_seq,
        overwrite = tsiv_flags_overwrite,
        cut = tsiv_flags_cut,
        shape = tsiv_flags_shape,
        fill = tsiv_flags_fill,
        fill_delayed = tsiv_flags_fill_delayed,
        fill_delayed_2 = tsiv_flags_fill_delayed_2,
        step = tsiv_flags_step,
        step_delayed = tsiv_flags_step_delayed,
        step_delayed_2 = tsiv_flags_step_delayed_2,
    }
}

impl bases::View<'_> {
    /// Writes its capital letters to the front of a buffer; later bytes stay.
    ///
    /// Refused: as every call on a view; `NoRoom` for a buffer of fewer bytes than its length.
    pub fn unpack(self, out: &mut [u8]) -> Result<(), Refusal> {
        let (b, n) = (self.bytes().as_ptr(), self.bytes().len());
        // SAFETY: the slices' own pointers and lengths, borrowed apart.
        Refusal::check(unsafe {
            sys::tsiv_bases_unpack(
                b,
                n,
                self.offset().0,
                self.len().0,
                out.as_mut_ptr(),
                out.len(),
            )
        })
    }
}

impl flags::View<'_> {
    /// Windows of k flags from step `skip` on: all 32 bits set where one of them is set. Context k and skip k - 1 give every
    /// window; a view of fewer than k flags has none, and is filled with skip 0. A smaller skip would give windows of fewer flags,
    /// and a smaller context leave out those that start at the end of a lane.
    ///
    /// Refused: as every call on a view; `BadStream` where [`flags::shape`] is with factor 1, for k outside 1 to 96 and for a skip
    /// above the steps; then `Partial`, if there are steps, for a skip below k - 1 or a context below k; then `NoRoom` for a
    /// buffer under [`lanes_room`](crate::lanes_room) of the steps less the skip.
    ///
    /// ```
    /// use tsivelaro::{flags, Chars, Refusal};
    ///
    /// let (mut buffer, mut out) = ([0; 64], [0; 64]);
    /// let mut store = flags::Store::clear(&mut buffer)?;
    /// store.push_ascii(b"ACGTACGNACGTACGT")?;
    /// let (view, k) = (store.view(), Chars(2));
    /// assert_eq!(view.fill_windows(k, k, 0, &mut out), Err(Refusal::Partial));
    /// assert_eq!(view.fill_windows(Chars(1), k, 1, &mut out), Err(Refusal::Partial));
    /// assert_eq!(view.fill_windows(k, k, 1, &mut out)?.steps, 8);
    /// assert_eq!([out[48], out[56]], [u32::MAX; 2]);
    /// # Ok::<(), Refusal>(())
    /// ```
    pub fn fill_windows(
        self,
        context: Chars,
        k: Chars,
        skip: usize,
        out: &mut [u32],
    ) -> Result<Filled, Refusal> {
        let (mut steps, mut padding) = (0, 0);
        let (b, n) = (self.bytes().as_ptr(), self.bytes().len());
        // SAFETY: the slices' own pointers and lengths, borrowed apart.
        let number = unsafe {
            sys::tsiv_flags_fill_windows(
                b,
                n,
                self.offset().0,
                self.len().0,
                context.0,
                k.0,
                skip,
                out.as_mut_ptr(),
                out.len(),
                &mut steps,
                &mut padding,
            )
        };
        Refusal::check(number).map(|()| Filled {
            steps,
            padding: Chars(padding),
        })
    }

    /// The windows of the step that the state names, and the next state. The first k - 1 steps have windows of fewer flags; any
    /// context is taken.
    ///
    /// Refused: as every call on a view; `BadStream` where [`flags::shape`] is with factor 1, for k outside 1 to 96, a step at or
    /// past the steps, a count above k - 1, or a sum of count and entering flag below the flag to take off.
    pub fn step_windows(
        self,
        context: Chars,
        k: Chars,
        mut state: Windows,
    ) -> Result<([u32; 8], Windows), Refusal> {
        let mut answers = [0; 8];
        let (b, n) = (self.bytes().as_ptr(), self.bytes().len());
        // SAFETY: the slice's own pointer and length; the numbers behind the pointers are ours.
        let number = unsafe {
            sys::tsiv_flags_step_windows(
                b,
                n,
                self.offset().0,
                self.len().0,
                context.0,
                k.0,
                &mut state.counts,
                &mut state.step,
                &mut answers,
            )
        };
        Refusal::check(number).map(|()| (answers, state))
    }
}
