//! The entries of the static library, as `include/rlnc.h` declares them. Each is proved for all numbers, lengths and bytes; what it assumes
//! of pointers, a Rust slice and a Rust reference keep: that is why calling them with those is safe.

unsafe extern "C" {
    pub fn rlnc_gf256_mul(a: u8, b: u8) -> u8;
    pub fn rlnc_gf256_inv(a: u8, inverse: &mut u8) -> bool;
    pub fn rlnc_gf256_div(a: u8, b: u8, quotient: &mut u8) -> bool;
    pub fn rlnc_inplace_mul_vec_by_scalar(vec: *mut u8, vec_len: usize, scalar: u8);
    pub fn rlnc_inplace_add_vectors(dst: *mut u8, dst_len: usize, src: *const u8, src_len: usize) -> u8;
    pub fn rlnc_mul_vec_by_scalar_then_add_into_vec(dst: *mut u8, dst_len: usize, src: *const u8, src_len: usize, scalar: u8) -> u8;
    pub fn rlnc_mul_part_by_scalar_then_add_into_part(buffer: *mut u8, buffer_len: usize, from: usize, to: usize, len: usize, scalar: u8) -> u8;
    pub fn rlnc_combine(rows: *const u8, rows_len: usize, numbers: *const u8, numbers_len: usize, out: *mut u8, out_len: usize) -> u8;
    pub fn rlnc_encoder_new(data: *const u8, data_len: usize, block: *mut u8, block_len: usize, piece_count: usize, piece_byte_len: &mut usize)
        -> u8;
    pub fn rlnc_encoder_without_padding(data: *const u8, data_len: usize, piece_count: usize, piece_byte_len: &mut usize) -> u8;
    pub fn rlnc_encoder_code_with_coding_vector(
        piece_count: usize,
        piece_byte_len: usize,
        block: *const u8,
        block_len: usize,
        coding_vector: *const u8,
        coding_vector_len: usize,
        coded_data: *mut u8,
        coded_data_len: usize,
    ) -> u8;
    pub fn rlnc_encoder_code_with_buf(
        piece_count: usize,
        piece_byte_len: usize,
        block: *const u8,
        block_len: usize,
        coding_vector: *const u8,
        coding_vector_len: usize,
        full_coded_piece: *mut u8,
        full_coded_piece_len: usize,
    ) -> u8;
    pub fn rlnc_encoder_get_piece_count(piece_count: usize, piece_byte_len: usize, count: &mut usize) -> u8;
    pub fn rlnc_encoder_get_piece_byte_len(piece_count: usize, piece_byte_len: usize, count: &mut usize) -> u8;
    pub fn rlnc_encoder_get_full_coded_piece_byte_len(piece_count: usize, piece_byte_len: usize, count: &mut usize) -> u8;
    pub fn rlnc_recoder_new(
        data: *const u8,
        data_len: usize,
        full_coded_piece_byte_len: usize,
        num_pieces_coded_together: usize,
        num_pieces_received: &mut usize,
    ) -> u8;
    pub fn rlnc_recoder_recode_with_buf(
        num_pieces_received: usize,
        full_coded_piece_byte_len: usize,
        num_pieces_coded_together: usize,
        pieces: *const u8,
        pieces_len: usize,
        recoding_vector: *const u8,
        recoding_vector_len: usize,
        full_recoded_piece: *mut u8,
        full_recoded_piece_len: usize,
    ) -> u8;
    pub fn rlnc_recoder_get_original_num_pieces_coded_together(
        num_pieces_received: usize,
        full_coded_piece_byte_len: usize,
        num_pieces_coded_together: usize,
        count: &mut usize,
    ) -> u8;
    pub fn rlnc_recoder_get_num_pieces_recoded_together(
        num_pieces_received: usize,
        full_coded_piece_byte_len: usize,
        num_pieces_coded_together: usize,
        count: &mut usize,
    ) -> u8;
    pub fn rlnc_recoder_get_piece_byte_len(
        num_pieces_received: usize,
        full_coded_piece_byte_len: usize,
        num_pieces_coded_together: usize,
        count: &mut usize,
    ) -> u8;
    pub fn rlnc_recoder_get_full_coded_piece_byte_len(
        num_pieces_received: usize,
        full_coded_piece_byte_len: usize,
        num_pieces_coded_together: usize,
        count: &mut usize,
    ) -> u8;
    pub fn rlnc_decoder_new(
        piece_byte_len: usize,
        required_piece_count: usize,
        elements: *mut u8,
        elements_len: usize,
        useful_piece_count: &mut usize,
        received_piece_count: &mut usize,
    ) -> u8;
    pub fn rlnc_decoder_decode(
        piece_byte_len: usize,
        required_piece_count: usize,
        elements: *mut u8,
        elements_len: usize,
        full_coded_piece: *const u8,
        full_coded_piece_len: usize,
        useful_piece_count: &mut usize,
        received_piece_count: &mut usize,
    ) -> u8;
    pub fn rlnc_decoder_get_decoded_data(
        piece_byte_len: usize,
        required_piece_count: usize,
        useful_piece_count: usize,
        received_piece_count: usize,
        elements: *const u8,
        elements_len: usize,
        data: *mut u8,
        data_room: usize,
        data_len: &mut usize,
    ) -> u8;
    pub fn rlnc_decoder_is_already_decoded(
        piece_byte_len: usize,
        required_piece_count: usize,
        useful_piece_count: usize,
        received_piece_count: usize,
        complete: &mut bool,
    ) -> u8;
    pub fn rlnc_decoder_get_num_pieces_coded_together(
        piece_byte_len: usize,
        required_piece_count: usize,
        useful_piece_count: usize,
        received_piece_count: usize,
        count: &mut usize,
    ) -> u8;
    pub fn rlnc_decoder_get_piece_byte_len(
        piece_byte_len: usize,
        required_piece_count: usize,
        useful_piece_count: usize,
        received_piece_count: usize,
        count: &mut usize,
    ) -> u8;
    pub fn rlnc_decoder_get_full_coded_piece_byte_len(
        piece_byte_len: usize,
        required_piece_count: usize,
        useful_piece_count: usize,
        received_piece_count: usize,
        count: &mut usize,
    ) -> u8;
    pub fn rlnc_decoder_get_received_piece_count(
        piece_byte_len: usize,
        required_piece_count: usize,
        useful_piece_count: usize,
        received_piece_count: usize,
        count: &mut usize,
    ) -> u8;
    pub fn rlnc_decoder_get_useful_piece_count(
        piece_byte_len: usize,
        required_piece_count: usize,
        useful_piece_count: usize,
        received_piece_count: usize,
        count: &mut usize,
    ) -> u8;
    pub fn rlnc_decoder_get_remaining_piece_count(
        piece_byte_len: usize,
        required_piece_count: usize,
        useful_piece_count: usize,
        received_piece_count: usize,
        count: &mut usize,
    ) -> u8;
    pub fn rlnc_stream_read(so_far: u8, bytes: *const u8, bytes_len: usize, kind: &mut u8) -> u8;
    pub fn rlnc_stream_read_kind(so_far: u8, next: u8, behind: usize, kind: &mut u8) -> u8;
    pub fn rlnc_stream_write(kind: u8, piece: *const u8, piece_len: usize, out: *mut u8, out_len: usize) -> u8;
    pub fn rlnc_stream_sizes(kind: u8, piece_count: &mut usize, piece_byte_len: &mut usize) -> u8;
    pub fn rlnc_stored_save(
        piece_byte_len: usize,
        required_piece_count: usize,
        useful_piece_count: usize,
        received_piece_count: usize,
        elements: *const u8,
        elements_len: usize,
        form: *mut u8,
        form_room: usize,
        form_len: &mut usize,
    ) -> u8;
    pub fn rlnc_stored_load(
        form: *const u8,
        form_len: usize,
        elements: *mut u8,
        elements_len: usize,
        piece_byte_len: &mut usize,
        required_piece_count: &mut usize,
        useful_piece_count: &mut usize,
        received_piece_count: &mut usize,
    ) -> u8;
}
