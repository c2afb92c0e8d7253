//! The calls of `der.h`. Written by tools/c_interface: change the crates that der_c uses instead.
use super::{
    Node, RawAccessDescription, RawAttribute, RawAuthorityKey, RawBits, RawCertificate, RawCertificateParts,
    RawConstraints, RawCounter, RawDistributionPoint, RawElement, RawEntry, RawError, RawExtension, RawFound,
    RawGeneralName, RawHeader, RawMark, RawNames, RawPemBlock, RawPemReader, RawPrivateKey, RawPublicKey, RawReader,
    RawRequest, RawRevocationList, RawRevoked, RawSpan, RawText, RawTime, RawTreeFound, RawUsage, RawWriter,
};

unsafe extern "C" {
    pub safe fn der_version() -> u32;
    pub fn der_error_text(error: RawError, text: *mut u8, capacity: usize) -> usize;
    pub fn der_reader_init<'a>(octets: *const u8, length: usize, ber: bool, reader: &mut RawReader<'a>) -> RawError;
    pub safe fn der_position(reader: &RawReader<'_>) -> usize;
    pub safe fn der_is_finished(reader: &RawReader<'_>) -> bool;
    pub safe fn der_finish(reader: &RawReader<'_>) -> RawError;
    pub safe fn der_read_header(reader: &mut RawReader<'_>, header: &mut RawHeader) -> RawError;
    pub safe fn der_read_element<'a>(reader: &mut RawReader<'a>, element: &mut RawElement<'a>) -> RawError;
    pub safe fn der_skip(reader: &mut RawReader<'_>) -> RawError;
    pub safe fn der_peek(reader: &RawReader<'_>, tag: &mut u64) -> RawError;
    pub safe fn der_next_is(reader: &RawReader<'_>, tag: u64) -> bool;
    pub safe fn der_expect<'a>(reader: &mut RawReader<'a>, tag: u64, element: &mut RawElement<'a>) -> RawError;
    pub safe fn der_optional<'a>(
        reader: &mut RawReader<'a>,
        tag: u64,
        element: &mut RawElement<'a>,
        present: &mut bool,
    ) -> RawError;
    pub safe fn der_enter<'a>(reader: &mut RawReader<'a>, tag: u64, inside: &mut RawReader<'a>) -> RawError;
    pub safe fn der_open<'a>(
        reader: &mut RawReader<'a>,
        element: &RawElement<'a>,
        inside: &mut RawReader<'a>,
    ) -> RawError;
    pub safe fn der_element_octets<'a>(
        reader: &RawReader<'a>,
        element: &RawElement<'a>,
        octets: &mut RawSpan<'a>,
    ) -> RawError;
    pub safe fn der_scan(reader: &mut RawReader<'_>, count: &mut u32) -> RawError;
    pub fn der_read_tree(reader: &mut RawReader<'_>, nodes: *mut Node, capacity: usize, count: &mut usize) -> RawError;
    pub fn der_compare(
        first: *const u8,
        first_length: usize,
        second: *const u8,
        second_length: usize,
        order: &mut i32,
    ) -> RawError;
    pub safe fn der_read_boolean(reader: &mut RawReader<'_>, tag: u64, value: &mut bool) -> RawError;
    pub safe fn der_read_uint64(reader: &mut RawReader<'_>, tag: u64, value: &mut u64) -> RawError;
    pub safe fn der_read_int64(reader: &mut RawReader<'_>, tag: u64, value: &mut i64) -> RawError;
    pub safe fn der_read_integer<'a>(reader: &mut RawReader<'a>, tag: u64, value: &mut RawSpan<'a>) -> RawError;
    pub safe fn der_read_bit_string<'a>(reader: &mut RawReader<'a>, tag: u64, bits: &mut RawBits<'a>) -> RawError;
    pub safe fn der_read_null(reader: &mut RawReader<'_>, tag: u64) -> RawError;
    pub safe fn der_read_oid<'a>(reader: &mut RawReader<'a>, tag: u64, oid: &mut RawSpan<'a>) -> RawError;
    pub safe fn der_read_text<'a>(
        reader: &mut RawReader<'a>,
        tag: u64,
        string_type: u64,
        text: &mut RawText<'a>,
    ) -> RawError;
    pub safe fn der_next_character(text: &mut RawText<'_>, character: &mut u32) -> bool;
    pub safe fn der_read_time(reader: &mut RawReader<'_>, tag: u64, time_type: u64, time: &mut RawTime) -> RawError;
    pub fn der_time_text(time: &RawTime, text: *mut u8, capacity: usize, count: &mut usize) -> RawError;
    pub fn der_oid_text(oid: *const u8, length: usize, text: *mut u8, capacity: usize, count: &mut usize) -> RawError;
    pub fn der_oid_arcs(oid: *const u8, length: usize, arcs: *mut u64, capacity: usize, count: &mut usize) -> RawError;
    pub fn der_oid_from_text(
        text: *const u8,
        length: usize,
        oid: *mut u8,
        capacity: usize,
        count: &mut usize,
    ) -> RawError;
    pub fn der_oid_is(oid: *const u8, length: usize, text: *const u8, text_length: usize) -> bool;
    pub fn der_certificate_read<'a>(
        octets: *const u8,
        length: usize,
        certificate: &mut RawCertificate<'a>,
    ) -> RawError;
    pub fn der_public_key_read<'a>(octets: *const u8, length: usize, key: &mut RawPublicKey<'a>) -> RawError;
    pub fn der_request_read<'a>(octets: *const u8, length: usize, request: &mut RawRequest<'a>) -> RawError;
    pub fn der_private_key_read<'a>(octets: *const u8, length: usize, key: &mut RawPrivateKey<'a>) -> RawError;
    pub fn der_revocation_list_read<'a>(
        octets: *const u8,
        length: usize,
        list: &mut RawRevocationList<'a>,
    ) -> RawError;
    pub safe fn der_next_extension<'a>(reader: &mut RawReader<'a>, extension: &mut RawExtension<'a>) -> RawError;
    pub safe fn der_next_attribute<'a>(reader: &mut RawReader<'a>, attribute: &mut RawAttribute<'a>) -> RawError;
    pub fn der_name_text<'a>(
        name: *const u8,
        length: usize,
        text: *mut u8,
        capacity: usize,
        count: &mut usize,
    ) -> RawError;
    pub safe fn der_is_hidden(character: u32) -> bool;
    pub safe fn der_next_general_name<'a>(reader: &mut RawReader<'a>, name: &mut RawGeneralName<'a>) -> RawError;
    pub safe fn der_next_revoked<'a>(reader: &mut RawReader<'a>, entry: &mut RawRevoked<'a>) -> RawError;
    pub fn der_key_usage<'a>(extensions: *const u8, length: usize, usage: &mut RawUsage) -> RawError;
    pub fn der_key_usage_lenient<'a>(
        extensions: *const u8,
        length: usize,
        usage: &mut RawUsage,
        is_der: &mut bool,
    ) -> RawError;
    pub fn der_basic_constraints<'a>(
        extensions: *const u8,
        length: usize,
        constraints: &mut RawConstraints,
    ) -> RawError;
    pub fn der_basic_constraints_lenient<'a>(
        extensions: *const u8,
        length: usize,
        constraints: &mut RawConstraints,
        is_der: &mut bool,
    ) -> RawError;
    pub fn der_subject_alternative_name<'a>(
        extensions: *const u8,
        length: usize,
        names: &mut RawNames<'a>,
    ) -> RawError;
    pub fn der_extended_key_usage<'a>(extensions: *const u8, length: usize, purposes: &mut RawFound<'a>) -> RawError;
    pub safe fn der_next_key_purpose<'a>(reader: &mut RawReader<'a>, purpose: &mut RawSpan<'a>) -> RawError;
    pub fn der_subject_key_identifier<'a>(
        extensions: *const u8,
        length: usize,
        identifier: &mut RawFound<'a>,
    ) -> RawError;
    pub fn der_authority_key_identifier<'a>(
        extensions: *const u8,
        length: usize,
        key: &mut RawAuthorityKey<'a>,
    ) -> RawError;
    pub fn der_authority_information_access<'a>(
        extensions: *const u8,
        length: usize,
        descriptions: &mut RawFound<'a>,
    ) -> RawError;
    pub safe fn der_next_access_description<'a>(
        reader: &mut RawReader<'a>,
        description: &mut RawAccessDescription<'a>,
    ) -> RawError;
    pub fn der_distribution_points<'a>(extensions: *const u8, length: usize, points: &mut RawFound<'a>) -> RawError;
    pub safe fn der_next_distribution_point<'a>(
        reader: &mut RawReader<'a>,
        point: &mut RawDistributionPoint<'a>,
    ) -> RawError;
    pub fn der_writer_init<'a>(octets: *mut u8, length: usize, writer: &mut RawWriter<'a>);
    pub safe fn der_written(writer: &RawWriter<'_>) -> usize;
    pub safe fn der_writer_finish(writer: &RawWriter<'_>) -> RawError;
    pub safe fn der_writer_fail(writer: &mut RawWriter<'_>);
    pub fn der_write(writer: &mut RawWriter<'_>, octets: *const u8, length: usize) -> RawError;
    pub safe fn der_write_header(writer: &mut RawWriter<'_>, tag: u64, length: u32) -> RawError;
    pub fn der_write_element(writer: &mut RawWriter<'_>, tag: u64, contents: *const u8, length: usize) -> RawError;
    pub fn der_write_parts(writer: &mut RawWriter<'_>, tag: u64, parts: *const RawSpan<'_>, count: usize) -> RawError;
    pub safe fn der_element_length(tag: u64, length: u32, count: &mut u32) -> RawError;
    pub safe fn der_begin(writer: &mut RawWriter<'_>, tag: u64, mark: &mut RawMark) -> RawError;
    pub safe fn der_end(writer: &mut RawWriter<'_>, mark: &RawMark) -> RawError;
    pub safe fn der_counter_init(counter: &mut RawCounter);
    pub safe fn der_count(counter: &mut RawCounter, length: usize) -> RawError;
    pub safe fn der_count_header(counter: &mut RawCounter, tag: u64, length: u32) -> RawError;
    pub safe fn der_count_element(counter: &mut RawCounter, tag: u64, length: u32) -> RawError;
    pub safe fn der_count_begin(counter: &mut RawCounter, tag: u64, mark: &mut RawMark) -> RawError;
    pub safe fn der_count_end(counter: &mut RawCounter, mark: &RawMark) -> RawError;
    pub safe fn der_counted(counter: &RawCounter, count: &mut u32) -> RawError;
    pub fn der_sort_set(elements: *mut RawSpan<'_>, count: usize);
    pub safe fn der_write_boolean(writer: &mut RawWriter<'_>, tag: u64, value: bool) -> RawError;
    pub safe fn der_write_uint64(writer: &mut RawWriter<'_>, tag: u64, value: u64) -> RawError;
    pub safe fn der_write_int64(writer: &mut RawWriter<'_>, tag: u64, value: i64) -> RawError;
    pub fn der_write_integer(writer: &mut RawWriter<'_>, tag: u64, octets: *const u8, length: usize) -> RawError;
    pub fn der_write_bit_string(
        writer: &mut RawWriter<'_>,
        tag: u64,
        octets: *const u8,
        length: usize,
        unused: u8,
    ) -> RawError;
    pub safe fn der_write_null(writer: &mut RawWriter<'_>, tag: u64) -> RawError;
    pub fn der_write_oid(writer: &mut RawWriter<'_>, tag: u64, octets: *const u8, length: usize) -> RawError;
    pub fn der_write_oid_text(writer: &mut RawWriter<'_>, tag: u64, text: *const u8, length: usize) -> RawError;
    pub fn der_write_text(
        writer: &mut RawWriter<'_>,
        tag: u64,
        string_type: u64,
        octets: *const u8,
        length: usize,
    ) -> RawError;
    pub safe fn der_write_time(writer: &mut RawWriter<'_>, tag: u64, time_type: u64, time: &RawTime) -> RawError;
    pub safe fn der_write_time_seconds(writer: &mut RawWriter<'_>, tag: u64, time_type: u64, seconds: i64) -> RawError;
    pub fn der_write_name_attribute<'a>(
        writer: &mut RawWriter<'_>,
        identifier: *const u8,
        length: usize,
        string_type: u64,
        text: *const u8,
        text_length: usize,
    ) -> RawError;
    pub fn der_write_extension<'a>(
        writer: &mut RawWriter<'_>,
        identifier: *const u8,
        length: usize,
        critical: bool,
        value: *const u8,
        value_length: usize,
    ) -> RawError;
    pub fn der_write_algorithm(
        writer: &mut RawWriter<'_>,
        identifier: *const u8,
        length: usize,
        null_parameters: bool,
    ) -> RawError;
    pub fn der_write_request_part<'a>(
        writer: &mut RawWriter<'_>,
        subject: *const u8,
        subject_length: usize,
        public_key: *const u8,
        key_length: usize,
        extensions: *const u8,
        extensions_length: usize,
    ) -> RawError;
    pub safe fn der_write_validity(writer: &mut RawWriter<'_>, not_before: i64, not_after: i64) -> RawError;
    pub safe fn der_write_certificate_part(writer: &mut RawWriter<'_>, parts: &RawCertificateParts<'_>) -> RawError;
    pub fn der_write_signed<'a>(
        writer: &mut RawWriter<'_>,
        part: *const u8,
        part_length: usize,
        algorithm: *const u8,
        algorithm_length: usize,
        signature: *const u8,
        signature_length: usize,
    ) -> RawError;
    pub safe fn der_known_types_room() -> usize;
    pub fn der_known_types(table: *mut u8, capacity: usize) -> usize;
    pub fn der_type_find(table: *const u8, table_length: usize, name: *const u8, length: usize) -> u32;
    pub fn der_kind_find(
        table: *const u8,
        table_length: usize,
        octets: *const u8,
        length: usize,
        entries: *mut RawEntry,
        capacity: usize,
        marks: *mut u32,
        mark_count: usize,
        text: *mut u8,
        buffer_length: usize,
    ) -> u32;
    pub fn der_kind_of_label(label: *const u8, length: usize) -> u32;
    pub safe fn der_kind_type(kind: u32) -> u32;
    pub fn der_kind_word(kind: u32, text: *mut u8, capacity: usize) -> usize;
    pub fn der_tree_read(
        table: *const u8,
        table_length: usize,
        node: u32,
        octets: *const u8,
        length: usize,
        entries: *mut RawEntry,
        capacity: usize,
        marks: *mut u32,
        mark_count: usize,
        text: *mut u8,
        buffer_length: usize,
        list: *mut u8,
        list_length: usize,
        found: &mut RawTreeFound,
    ) -> bool;
    pub fn der_tree_find<'a>(
        table: *const u8,
        table_length: usize,
        octets: *const u8,
        length: usize,
        entries: *const RawEntry,
        count: usize,
        from: usize,
        path: *const u8,
        path_length: usize,
    ) -> usize;
    pub fn der_tree_child<'a>(
        table: *const u8,
        table_length: usize,
        octets: *const u8,
        length: usize,
        entries: *const RawEntry,
        count: usize,
        parent: usize,
        number: usize,
    ) -> usize;
    pub fn der_tree_octets<'a>(
        octets: *const u8,
        length: usize,
        entries: *const RawEntry,
        count: usize,
        index: usize,
        part: &mut RawSpan<'a>,
    ) -> bool;
    pub fn der_tree_contents<'a>(
        octets: *const u8,
        length: usize,
        entries: *const RawEntry,
        count: usize,
        index: usize,
        part: &mut RawSpan<'a>,
    ) -> bool;
    pub fn der_tree_name<'a>(
        table: *const u8,
        table_length: usize,
        octets: *const u8,
        length: usize,
        entries: *const RawEntry,
        count: usize,
        index: usize,
        text: *mut u8,
        capacity: usize,
    ) -> usize;
    pub fn der_tree_type<'a>(
        table: *const u8,
        table_length: usize,
        octets: *const u8,
        length: usize,
        entries: *const RawEntry,
        count: usize,
        index: usize,
        text: *mut u8,
        capacity: usize,
    ) -> usize;
    pub fn der_tree_text<'a>(
        table: *const u8,
        table_length: usize,
        octets: *const u8,
        length: usize,
        entries: *const RawEntry,
        count: usize,
        index: usize,
        text: *mut u8,
        capacity: usize,
    ) -> usize;
    pub fn der_pem_next(
        reader: &mut RawPemReader<'_>,
        octets: *mut u8,
        capacity: usize,
        block: &mut RawPemBlock,
    ) -> u32;
    pub fn der_base64_decode(text: *const u8, length: usize, octets: *mut u8, capacity: usize) -> usize;
    pub fn der_base64_encode(octets: *const u8, length: usize, text: *mut u8, capacity: usize) -> usize;
    pub fn der_pem_write(
        label: *const u8,
        label_length: usize,
        octets: *const u8,
        length: usize,
        text: *mut u8,
        capacity: usize,
    ) -> usize;
}
