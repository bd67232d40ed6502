//! Addenda of checks and returns, filled in by the names of the standard. Of the crate's modules it imports `entry` and `value` alone.

use crate::entry::{gives, Entry};
use crate::value::{Date, Time};

/// The addenda of which no value has to be told.
macro_rules! addendum {
    ($maker:ident, $record_type:literal, $kind:literal) => {
        #[doc = concat!("A ", $kind, ".")]
        #[derive(Clone, Debug)]
        pub struct $maker<'p> {
            pub(crate) record: Entry<'p>,
        }

        impl<'p> $maker<'p> {
            /// An addendum of which nothing is told yet.
            pub fn new() -> $maker<'p> {
                $maker { record: Entry::new($record_type, []) }
            }
        }

        impl Default for $maker<'_> {
            fn default() -> Self {
                $maker::new()
            }
        }
    };
}

addendum!(CheckAddendumA, 26, "Check Detail Addendum A Record");
addendum!(CheckAddendumB, 27, "Check Detail Addendum B Record");
addendum!(CheckAddendumC, 28, "Check Detail Addendum C Record");
addendum!(ReturnAddendumA, 32, "Return Addendum A Record");
addendum!(ReturnAddendumC, 34, "Return Addendum C Record");
addendum!(ReturnAddendumD, 35, "Return Addendum D Record");

/// A Return Addendum B Record: why an item comes back.
#[derive(Clone, Debug)]
pub struct ReturnAddendumB<'p> {
    pub(crate) record: Entry<'p>,
}

impl<'p> ReturnAddendumB<'p> {
    /// A Return Addendum B Record with a Return Reason of Annex G.
    pub fn new(return_reason: &str) -> ReturnAddendumB<'p> {
        ReturnAddendumB { record: Entry::new(33, [(2, return_reason.into())]) }
    }
}

gives! { CheckAddendumA.record = CHECK_ADDENDUM_A, "Check Detail Addendum A Record":
    3 return_location_routing_number: &str,
    4 bofd_business_endorsement_date: Date,
    5 bofd_item_sequence_number: &str,
    6 deposit_account_number_at_bofd: &str,
    7 bofd_deposit_branch: &str,
    8 payee_name: &str,
    9 truncation_indicator: &str,
    10 bofd_conversion_indicator: &str,
    11 bofd_correction_indicator: &str,
    12 bofd_magnetic_read_indicator: &str,
    13 user_field: &str,
}

gives! { CheckAddendumB.record = CHECK_ADDENDUM_B, "Check Detail Addendum B Record":
    2 item_description: &str,
    3 image_capture_date: Date,
    4 image_capture_time: Time,
    5 microfilm_archive_sequence_number: &str,
    13 image_archive_locator: &str,
    14 captured_unparsed_micr_data: &str,
    15 captured_high_unparsed_micr_data: &str,
    16 corrected_unparsed_micr_data: &str,
    17 corrected_high_unparsed_micr_data: &str,
    18 user_field: &str,
}

gives! { CheckAddendumC.record = CHECK_ADDENDUM_C, "Check Detail Addendum C Record":
    3 endorsing_bank_routing_number: &str,
    4 endorsing_bank_endorsement_date: Date,
    5 endorsing_bank_item_sequence_number: &str,
    6 truncation_indicator: &str,
    7 endorsing_bank_conversion_indicator: &str,
    8 endorsing_bank_correction_indicator: &str,
    9 return_reason: &str,
    10 endorsing_bank_magnetic_read_indicator: &str,
    11 endorsing_bank_identifier: &str,
    12 deposit_account_number_at_bofd: &str,
    13 user_field: &str,
}

// Fields 4 and 5 take question marks where the endorsement could not be read, so they are texts.
gives! { ReturnAddendumA.record = RETURN_ADDENDUM_A, "Return Addendum A Record":
    3 return_location_routing_number: &str,
    4 bofd_business_endorsement_date: &str,
    5 bofd_item_sequence_number: &str,
    6 deposit_account_number_at_bofd: &str,
    7 bofd_deposit_branch: &str,
    8 payee_name: &str,
    9 truncation_indicator: &str,
    10 bofd_conversion_indicator: &str,
    11 bofd_correction_indicator: &str,
    12 bofd_magnetic_read_indicator: &str,
    13 user_field: &str,
}

gives! { ReturnAddendumB.record = RETURN_ADDENDUM_B, "Return Addendum B Record":
    3 forward_bundle_date: Date,
    4 additional_return_reason: &str,
    5 number_of_times_returned: &str,
    6 return_documentation_type_indicator: &str,
    7 archive_type_indicator: &str,
    8 payor_bank_name: &str,
    9 payor_bank_item_sequence_number: &str,
    10 payor_bank_business_date: Date,
    11 payor_account_name: &str,
}

gives! { ReturnAddendumC.record = RETURN_ADDENDUM_C, "Return Addendum C Record":
    2 item_description: &str,
    3 image_capture_date: Date,
    4 image_capture_time: Time,
    5 microfilm_archive_sequence_number: &str,
    13 image_archive_locator: &str,
    14 captured_unparsed_micr_data: &str,
    15 captured_high_unparsed_micr_data: &str,
    16 corrected_unparsed_micr_data: &str,
    17 corrected_high_unparsed_micr_data: &str,
    18 user_field: &str,
}

gives! { ReturnAddendumD.record = RETURN_ADDENDUM_D, "Return Addendum D Record":
    3 endorsing_bank_routing_number: &str,
    4 endorsing_bank_endorsement_date: Date,
    5 endorsing_bank_item_sequence_number: &str,
    6 truncation_indicator: &str,
    7 endorsing_bank_conversion_indicator: &str,
    8 endorsing_bank_correction_indicator: &str,
    9 return_reason: &str,
    10 endorsing_bank_magnetic_read_indicator: &str,
    11 endorsing_bank_identifier: &str,
    12 deposit_account_number_at_bofd: &str,
    13 user_field: &str,
}
