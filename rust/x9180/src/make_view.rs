//! Views, filled in by the names of the standard. Of the crate's modules it imports `entry` and `value` alone.

use crate::entry::{gives, Entry, Key};
use crate::value::{Date, Time};

/// The side that a view shows (clause 21.8).
#[derive(Clone, Copy, Debug, PartialEq, Eq)]
pub enum Side {
    /// 0
    Front,
    /// 1
    Back,
}

/// A view: what is said of a picture, the picture itself, which is lent, and its analysis where there is one.
#[derive(Clone, Debug)]
pub struct View<'p> {
    detail: Entry<'p>,
    data: Entry<'p>,
    analysis: Option<Analysis<'p>>,
}

impl<'p> View<'p> {
    /// A picture of one side of a check, by the institution of this routing number, on a day: the full view, as a TIFF in black and white (compression Group
    /// 4), not signed, not clipped. What is otherwise is told by the methods.
    ///
    /// The view names its institution, business day, cycle and item again (fields 2 to 5 of its Image View Data Record). Where they are not given they are
    /// those of the bundle's header, or outside a bundle of the cash letter's, and of the item.
    pub fn new(side: Side, creator: &str, date: Date, picture: &'p [u8]) -> View<'p> {
        let side = match side {
            Side::Front => "0",
            Side::Back => "1",
        };
        let detail = Entry::new(
            50,
            [
                (2, "1".into()),
                (3, creator.into()),
                (4, date.into()),
                (5, "00".into()),
                (6, "00".into()),
                (7, "0".into()),
                (8, side.into()),
                (9, "00".into()),
                (10, "0".into()),
                (14, "0".into()),
                (17, 0.into()),
                (18, 0.into()),
            ],
        );
        let zeros = [10, 11, 12, 13, 14].map(|field| (field, 0.into()));
        let mut data = Entry::new(52, zeros);
        data.give(9, "0");
        data.lend(27, picture);
        View { detail, data, analysis: None }
    }

    /// Lends the Digital Signature, field 23 of the Image View Data Record.
    #[must_use]
    pub fn digital_signature(mut self, bytes: &'p [u8]) -> View<'p> {
        self.data.lend(23, bytes);
        self
    }

    /// Lends the Digital Certificate, field 26 of the Image View Data Record.
    #[must_use]
    pub fn digital_certificate(mut self, bytes: &'p [u8]) -> View<'p> {
        self.data.lend(26, bytes);
        self
    }

    /// Lends the Ancillary Data, field 28 of the Image View Data Record.
    #[must_use]
    pub fn ancillary_data(mut self, bytes: &'p [u8]) -> View<'p> {
        self.data.lend(28, bytes);
        self
    }

    /// Gives the view its analysis, in place of an earlier one.
    #[must_use]
    pub fn analysis(mut self, analysis: Analysis<'p>) -> View<'p> {
        self.analysis = Some(analysis);
        self
    }

    pub(crate) fn lay_down(mut self, key: &Key, entries: &mut Vec<Entry<'p>>) {
        self.data.fill_in(key);
        entries.extend([self.detail, self.data]);
        entries.extend(self.analysis.map(|analysis| analysis.record));
    }
}

gives! { View.detail = VIEW_DETAIL, "Image View Detail Record":
    2 image_indicator: &str,
    5 image_view_format_indicator: &str,
    6 image_view_compression_algorithm_identifier: &str,
    7 image_view_type: &str,
    9 view_descriptor: &str,
    10 digital_signature_indicator: &str,
    11 digital_signature_hash_function_method: &str,
    12 digital_signature_cryptographic_algorithm_method: &str,
    13 dsa_rsa_key_size_or_ecc_curve_number: &str,
    14 digital_certificate_indicator: &str,
    15 digital_certificate_format: &str,
    16 digital_certificate_conveyance_method: &str,
    17 start_of_protected_data: u64,
    18 length_of_protected_data: u64,
    19 image_recreate_indicator: &str,
    20 image_test_override_indicator: &str,
    21 image_capture_time: Time,
    22 user_field: &str,
}

gives! { View.data = VIEW_DATA, "Image View Data Record":
    2 ece_institution_routing_number: &str,
    3 bundle_business_date: Date,
    4 cycle_number: &str,
    5 ece_institution_item_sequence_number: &str,
    6 security_originator_name: &str,
    7 security_authenticator_name: &str,
    8 security_key_name: &str,
    9 clipping_origin: &str,
    10 clipping_coordinate_h1: u64,
    11 clipping_coordinate_h2: u64,
    12 clipping_coordinate_v1: u64,
    13 clipping_coordinate_v2: u64,
    14 ancillary_data_indicator: &str,
    22 image_reference_key: &str,
    24 digital_certificate_issuer_distinguished_name: &str,
    25 digital_certificate_serial_number: &str,
}

/// An Image View Analysis Record: what was tested of a view.
#[derive(Clone, Debug)]
pub struct Analysis<'p> {
    record: Entry<'p>,
}

impl<'p> Analysis<'p> {
    /// The three that have to be told: whether the picture was tested for defects, for its use, and by a test of the bank's own. Each is 0 (not tested), 1
    /// (tested, and something was reported) or 2 (tested, and nothing was).
    pub fn new(defect: &str, usability: &str, bank_specific_test: &str) -> Analysis<'p> {
        Analysis { record: Entry::new(54, [(2, defect.into()), (3, usability.into()), (4, bank_specific_test.into())]) }
    }
}

gives! { Analysis.record = ANALYSIS, "Image View Analysis Record":
    5 partial_image: &str,
    6 excessive_image_skew: &str,
    7 piggyback_image: &str,
    8 too_light: &str,
    9 too_dark: &str,
    10 streaks_and_or_bands: &str,
    11 below_minimum_image_size: &str,
    12 exceeds_maximum_image_size: &str,
    26 image_enabled_pod: &str,
    27 source_document_bad: &str,
    28 date_issue_usability: &str,
    29 payee_usability: &str,
    30 convenience_amount_usability: &str,
    31 amount_in_words_legal_amount_usability: &str,
    32 signature_payor_usability: &str,
    33 payor_name_and_address_usability: &str,
    34 micr_line_usability: &str,
    35 memo_line_usability: &str,
    36 payor_bank_name_and_address_usability: &str,
    37 payee_endorsement_usability: &str,
    38 bank_of_first_deposit_endorsement_usability: &str,
    39 transit_endorsement_usability: &str,
    46 user_field: &str,
}
