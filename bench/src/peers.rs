//! sdsl's succinct range minimum structures, where the library is installed.

/// A structure of another library over a column.
pub trait Peer {
    /// A smallest entry from i to j, both counted in.
    fn ask(&self, i: usize, j: usize) -> usize;

    /// How many bytes it takes.
    fn bytes(&self) -> usize;

    /// The sum of many answers: one call for a round of asks.
    fn sum(&self, asks: &[(usize, usize)]) -> u64 {
        asks.iter().map(|&(i, j)| self.ask(i, j) as u64).sum()
    }
}

/// Makes a structure over a column.
pub type Make = fn(&[u32]) -> Box<dyn Peer>;

/// The name of each structure, and what makes it.
#[cfg(sdsl)]
pub const PEERS: &[(&str, Make)] = &[
    ("sdsl sct", |column| Box::new(installed::Sct::new(column))),
    ("sdsl sada", |column| Box::new(installed::Sada::new(column))),
];
/// None: the library is not installed.
#[cfg(not(sdsl))]
pub const PEERS: &[(&str, Make)] = &[];

#[cfg(sdsl)]
mod installed {
    use std::ffi::c_void;
    use std::ptr::NonNull;

    use super::Peer;

    unsafe extern "C" {
        fn peer_sct_new(column: *const u32, length: usize) -> *mut c_void;
        fn peer_sct_ask(rmq: *const c_void, i: usize, j: usize) -> usize;
        fn peer_sct_bytes(rmq: *const c_void) -> usize;
        fn peer_sct_free(rmq: *mut c_void);
        fn peer_sada_new(column: *const u32, length: usize) -> *mut c_void;
        fn peer_sada_ask(rmq: *const c_void, i: usize, j: usize) -> usize;
        fn peer_sada_bytes(rmq: *const c_void) -> usize;
        fn peer_sada_free(rmq: *mut c_void);
    }

    macro_rules! peer {
        ($(#[$doc:meta])* $name:ident, $new:ident, $ask:ident, $bytes:ident, $free:ident) => {
            $(#[$doc])*
            #[derive(Debug)]
            pub(super) struct $name {
                rmq: NonNull<c_void>,
                entries: usize,
            }

            impl $name {
                /// The structure over a column.
                pub(super) fn new(column: &[u32]) -> $name {
                    // SAFETY: the pointer and the length are a live slice's, which is copied.
                    let rmq = unsafe { $new(column.as_ptr(), column.len()) };
                    let rmq = NonNull::new(rmq).expect("new throws where it has no memory");
                    $name { rmq, entries: column.len() }
                }
            }

            impl Peer for $name {
                #[inline]
                fn ask(&self, i: usize, j: usize) -> usize {
                    assert!(i <= j && j < self.entries);
                    // SAFETY: the structure lives as long as self does, and the places are in its range.
                    unsafe { $ask(self.rmq.as_ptr(), i, j) }
                }

                fn bytes(&self) -> usize {
                    // SAFETY: the structure lives as long as self does.
                    unsafe { $bytes(self.rmq.as_ptr()) }
                }
            }

            impl Drop for $name {
                fn drop(&mut self) {
                    // SAFETY: the structure is freed once, and nobody holds it any more.
                    unsafe { $free(self.rmq.as_ptr()) }
                }
            }
        };
    }

    peer! {
        /// `rmq_succinct_sct`, over the parentheses of a super-Cartesian tree.
        Sct, peer_sct_new, peer_sct_ask, peer_sct_bytes, peer_sct_free
    }
    peer! {
        /// `rmq_succinct_sada`, over the parentheses of an extended Cartesian tree.
        Sada, peer_sada_new, peer_sada_ask, peer_sada_bytes, peer_sada_free
    }
}
