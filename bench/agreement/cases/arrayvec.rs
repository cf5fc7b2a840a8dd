// Definitions and calls of macros cut out of arrayvec-0.7.2, which is licensed as MIT OR Apache-2.0.

// from src/arrayvec.rs
macro_rules! panic_oob {
    ($method_name:expr, $index:expr, $len:expr) => {
        panic!(concat!("ArrayVec::", $method_name, ": index {} is out of bounds in vector of length {}"),
               $index, $len)
    }
}
panic_oob!("try_insert", index, self.len());
panic_oob!("swap_remove", index, self.len());
panic_oob!("remove", index, self.len());
