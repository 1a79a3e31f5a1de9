//! The value of a `priority` field (RFC 9218, section 4).

use crate::raw;

/// The priority of a response.
#[derive(Debug, Clone, Copy, PartialEq, Eq)]
pub struct Priority {
    /// From 0, the most urgent, to 7.
    pub urgency: u8,
    /// Whether parts of the response are of use before it is whole.
    pub incremental: bool,
}

impl Priority {
    /// Reads the value of a `priority` field. Join the values of several such fields by `, `. An urgency that is missing is 3, and an
    /// `incremental` that is missing is `false`. Returns `None` if the value is not a dictionary (RFC 8941, section 3.2): ignore the field then.
    ///
    /// ```
    /// use beanwhile_h3::Priority;
    ///
    /// assert_eq!(Priority::read(b"u=1, i"), Some(Priority { urgency: 1, incremental: true }));
    /// assert_eq!(Priority::read(b""), Some(Priority { urgency: 3, incremental: false }));
    /// assert_eq!(Priority::read(b"u=1,"), None);
    /// ```
    pub fn read(value: &[u8]) -> Option<Priority> {
        let (mut urgency, mut incremental) = (0, 0);
        // SAFETY: the pointer and length are those of a slice, and both results are numbers of this function.
        let answer = unsafe { raw::h3_raw_priority_read(value.as_ptr(), value.len(), &mut urgency, &mut incremental) };
        (answer == 0).then_some(Priority { urgency: urgency as u8, incremental: incremental != 0 })
    }
}
