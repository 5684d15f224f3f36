//! The bus buffers, once: what is said of each of them elsewhere is made from
//! this list.

/// Calls the macro `then` with the list of the bus buffers in the order in which
/// a function takes them, and with what else is passed on.
///
/// A line is the buffer's name, its element type, its exact length and the
/// length's name in [`raw`](crate::raw). `then` matches
/// `[$($name:ident: [$element:ty; $len:expr], $constant:ident;)*]` and what was
/// passed on behind it.
///
/// ```
/// macro_rules! bytes {
///     ([$($name:ident: [$element:ty; $len:expr], $constant:ident;)*]) => {
///         0 $(+ $len * std::mem::size_of::<$element>())*
///     };
/// }
/// assert_eq!(eikelzwier::bus_buffers!(bytes), 178_824);
/// ```
#[macro_export]
macro_rules! bus_buffers {
    ($then:ident $(, $($more:tt)*)?) => {
        $then! {
            [
                peers: [u64; 25], PEERS_LEN;
                nodes: [u64; 256], NODES_LEN;
                handles: [u64; 4112], HANDLES_LEN;
                charges: [u16; 96], CHARGES_LEN;
                ends: [u16; 16], ENDS_LEN;
                entries: [u16; 20480], ENTRIES_LEN;
                carried: [u8; 32768], CARRIED_LEN;
                numbers: [u64; 4096], NUMBERS_LEN;
                pool: [u8; 32768], POOL_LEN;
                seeds: [u8; 4192], SEEDS_LEN;
            ]
            $($($more)*)?
        }
    };
}

/// Calls a raw function with the buffers of a value and with more arguments. The
/// value has a field for each buffer, which has `as_mut_ptr` and `len`.
#[macro_export]
macro_rules! bus_call {
    ([$($name:ident: [$element:ty; $len:expr], $constant:ident;)*] $function:path, $bus:expr $(, $more:expr)*) => {
        $function($($bus.$name.as_mut_ptr(), $bus.$name.len(),)* $($more),*)
    };
    ($function:path, $bus:expr $(, $more:expr)* $(,)?) => {{
        use $crate::bus_call as with_each;
        $crate::bus_buffers!(with_each, $function, $bus $(, $more)*)
    }};
}
