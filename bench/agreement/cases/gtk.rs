// Definitions and calls of macros cut out of gtk-0.14.3, which is licensed as MIT.

// from src/entry_buffer.rs
macro_rules! to_u16 {
    ($e:expr) => (
        {
            let x = $e;
            assert!(x as usize <= u16::max_value() as usize,
                "Unexpected value exceeding `u16` range");
            x as u16
        }
    )
}
to_u16!(ffi::gtk_entry_buffer_delete_text(
                self.to_glib_none().0,
                position as c_uint,
                n_chars.map(|n| n as c_int).unwrap_or(-1)
            ));
to_u16!(ffi::gtk_entry_buffer_get_length(self.to_glib_none().0));
to_u16!(x);
to_u16!(ffi::gtk_entry_buffer_insert_text(
                self.to_glib_none().0,
                position as c_uint,
                chars.to_glib_none().0,
                -1
            ));
