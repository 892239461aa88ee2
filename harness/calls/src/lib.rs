//! The calls that the runs run, with the bare numbers that they tell: the library's, by the package of examples/rust, or
//! by the feature `standin` those of the stand-in.

#[cfg(not(feature = "standin"))]
pub use griezmuld::told;
#[cfg(feature = "standin")]
pub use standin as told;

pub use griezmuld::{Built, Changed, Distance, Filled, Refusal, Route};

/// What was linked, in words.
pub fn linked() -> String {
    #[cfg(feature = "standin")]
    return match standin::fault() {
        0 => "the stand-in, which is not the library".to_string(),
        fault => {
            let name = faults().get(fault as usize - 1);
            let name = name.unwrap_or(&"there is none of that number");
            format!("the stand-in with planted fault {fault} ({name})")
        }
    };
    #[cfg(not(feature = "standin"))]
    format!("the library ({})", griezmuld::LINKED)
}

/// What each planted fault of the stand-in is, in words; nothing can be planted in the library.
pub fn faults() -> &'static [&'static str] {
    #[cfg(feature = "standin")]
    return &standin::FAULTS;
    #[cfg(not(feature = "standin"))]
    &[]
}

/// Whether the library itself was linked.
pub const LIBRARY: bool = cfg!(not(feature = "standin"));
