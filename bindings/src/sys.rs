//! The functions that the archive exports, each behind a safe one of the same arguments. This is the only file with `unsafe` and
//! `extern "C"`, and both stand in one place of it. A slice goes over as a pointer and a length; the number that comes back is 0 for
//! done, else that of include/bawersun.h. A test holds the arguments below to those of the header.
#![allow(unsafe_code)]

/// Takes the arguments one by one: on the left what Rust is given, in brackets what C is, as types and as values.
macro_rules! export {
    ($symbol:ident $given:tt [$($c:ty,)*] [$($value:expr,)*] () -> $back:ty) => {
        export!(function $symbol $given [$($c,)*] [$($value,)*] -> $back);
    };
    (function $symbol:ident ($($name:ident: $type:ty,)*) [$($c:ty,)*] [$($value:expr,)*] -> $back:ty) => {
        #[allow(clippy::too_many_arguments)]
        #[inline]
        pub fn $symbol($($name: $type),*) -> $back {
            // The declaration that the header has: the archive defines the function with it.
            extern "C" {
                fn $symbol($(_: $c),*) -> $back;
            }
            // SAFETY: a pointer and its length are those of one slice, so what is lent is there, aligned, and of that length; what is written
            // through comes of a `&mut`, so nothing else that is lent overlaps it; a single value is a reference. The function keeps no
            // pointer, and it is proved to stay within what it is lent and to end, whatever the values are.
            unsafe { $symbol($($value),*) }
        }
    };
    ($symbol:ident ($($given:tt)*) [$($c:tt)*] [$($value:tt)*] ($name:ident: &[$t:ty], $($rest:tt)*) -> $back:ty) => {
        export!($symbol ($($given)* $name: &[$t],) [$($c)* *const $t, usize,] [$($value)* $name.as_ptr(), $name.len(),] ($($rest)*) -> $back);
    };
    ($symbol:ident ($($given:tt)*) [$($c:tt)*] [$($value:tt)*] ($name:ident: &mut [$t:ty], $($rest:tt)*) -> $back:ty) => {
        export!($symbol ($($given)* $name: &mut [$t],) [$($c)* *mut $t, usize,] [$($value)* $name.as_mut_ptr(), $name.len(),] ($($rest)*) -> $back);
    };
    ($symbol:ident ($($given:tt)*) [$($c:tt)*] [$($value:tt)*] ($name:ident: &mut $t:ty, $($rest:tt)*) -> $back:ty) => {
        export!($symbol ($($given)* $name: &mut $t,) [$($c)* *mut $t,] [$($value)* $name,] ($($rest)*) -> $back);
    };
    ($symbol:ident ($($given:tt)*) [$($c:tt)*] [$($value:tt)*] ($name:ident: $t:ty, $($rest:tt)*) -> $back:ty) => {
        export!($symbol ($($given)* $name: $t,) [$($c)* $t,] [$($value)* $name,] ($($rest)*) -> $back);
    };
}

macro_rules! exports {
    ($(fn $symbol:ident($($argument:tt)*) -> $back:ty;)*) => {
        $(export!($symbol () [] [] ($($argument)*) -> $back);)*

        /// Each function with its arguments and what comes back, as they stand below.
        #[cfg(test)]
        const LISTED: &[(&str, &str, &str)] = &[$((stringify!($symbol), stringify!($($argument)*), stringify!($back))),*];
    };
}

exports! {
    fn bawersun_get_qubit(n: usize, m: usize, x: &[u64], z: &[u64], phases: &[u64], row: usize, qubit: usize, pauli: &mut u8,) -> u8;
    fn bawersun_set_qubit(n: usize, m: usize, x: &mut [u64], z: &mut [u64], phases: &[u64], row: usize, qubit: usize, pauli: u8,) -> u8;
    fn bawersun_count(n: usize, m: usize, x: &[u64], z: &[u64], phases: &[u64], row: usize, pauli: u8, count: &mut u64,) -> u8;
    fn bawersun_phase_of_mul(n: usize, m: usize, x: &[u64], z: &[u64], phases: &[u64], a: usize, b: usize, exponent: &mut u8,) -> u8;
    fn bawersun_phase_of_mul_by_table(n: usize, m: usize, x: &[u64], z: &[u64], phases: &[u64], a: usize, b: usize, exponent: &mut u8,) -> u8;
    fn bawersun_commutes_with(n: usize, m: usize, x: &[u64], z: &[u64], phases: &[u64], a: usize, b: usize, truth: &mut u8,) -> u8;
    fn bawersun_belongs_to_centralizer(n: usize, m: usize, x: &[u64], z: &[u64], phases: &[u64], row: usize, truth: &mut u8,) -> u8;
    fn bawersun_compatibility_matrix(n: usize, m: usize, x: &[u64], z: &[u64], phases: &[u64], out: &mut [u64],) -> u8;
    fn bawersun_cmpnts_mul_pairwise(n: usize, m: usize, lx: &[u64], lz: &[u64], lp: &[u64], rx: &[u64], rz: &[u64], rp: &[u64],
        ox: &mut [u64], oz: &mut [u64], op: &mut [u64], clashes: &mut [u16],) -> u8;
    fn bawersun_imul_state(n: usize, m: usize, x: &[u64], z: &[u64], phases: &[u64], row: usize, state: &mut [u64], exponent: &mut u8,) -> u8;
    fn bawersun_imul(n: usize, m: usize, x: &mut [u64], z: &mut [u64], phases: &mut [u64], a: usize, b: usize, clashes: &mut u16,) -> u8;
    fn bawersun_canonicalize(n: usize, m: usize, x: &mut [u64], z: &mut [u64], phases: &mut [u64], order: &[u16], listed: &[u16],
        extra: &[u16], log: &mut [u16], entries: &mut usize, t: &mut usize,) -> u8;
    fn bawersun_canonicalize_all(n: usize, m: usize, x: &mut [u64], z: &mut [u64], phases: &mut [u64], log: &mut [u16],
        entries: &mut usize, t: &mut usize,) -> u8;
    fn bawersun_check(n: usize, m: usize, x: &mut [u64], z: &mut [u64], phases: &mut [u64], order: &[u16], listed: &[u16],
        extra: &[u16], log: &[u16], cx: &[u64], cz: &[u64], cphases: &[u64], place: &mut usize,) -> u8;
    fn bawersun_undo(n: usize, m: usize, x: &mut [u64], z: &mut [u64], phases: &mut [u64], listed: &[u16], extra: &[u16],
        log: &[u16], place: &mut usize,) -> u8;
    fn bawersun_pwl_write(n: usize, m: usize, x: &[u64], z: &[u64], phases: &[u64], order: &[u16], listed: &[u16], extra: &[u16],
        log: &[u16], cx: &[u64], cz: &[u64], cphases: &[u64], out: &mut [u8], length: &mut usize,) -> u8;
    fn bawersun_pwl_open(file: &[u8], n: &mut usize, m: &mut usize, order: &mut usize, listed: &mut usize, extra: &mut usize,
        entries: &mut usize,) -> u8;
    fn bawersun_pwl_read(file: &[u8], units: &mut [u16], x: &mut [u64], z: &mut [u64], phases: &mut [u64], claimed: &mut [u64],
        n: &mut usize, m: &mut usize, order: &mut usize, listed: &mut usize, extra: &mut usize, entries: &mut usize,) -> u8;
    fn bawersun_fmt_elem(n: usize, m: usize, x: &[u64], z: &[u64], phases: &[u64], row: usize, out: &mut [u8], length: &mut usize,) -> u8;
    fn bawersun_parse_elem(n: usize, m: usize, x: &mut [u64], z: &mut [u64], phases: &[u64], row: usize, text: &[u8],) -> u8;
    fn bawersun_conj_h(n: usize, m: usize, x: &mut [u64], z: &mut [u64], phases: &mut [u64], q: usize,) -> u8;
    fn bawersun_conj_s(n: usize, m: usize, x: &mut [u64], z: &mut [u64], phases: &mut [u64], q: usize,) -> u8;
    fn bawersun_conj_cx(n: usize, m: usize, x: &mut [u64], z: &mut [u64], phases: &mut [u64], control: usize, target: usize,) -> u8;
    fn bawersun_mat_elem_cmpnts_from_presorted(n: usize, x: &[u64], z: &[u64], re: &[f64], im: &[f64], bra: u64, ket: u64,
        real: &mut f64, imag: &mut f64,) -> u8;
    fn bawersun_mat_elem_cmpnts_from_presorted_whole(n: usize, x: &[u64], z: &[u64], re: &[i32], im: &[i32], bra: u64, ket: u64,
        real: &mut i64, imag: &mut i64,) -> u8;
    fn bawersun_mat_elem_from_presorted(n: usize, x: &[u64], z: &[u64], re: &[i32], im: &[i32], bras: &[u64], bre: &[i32],
        bim: &[i32], kets: &[u64], kre: &[i32], kim: &[i32], real: &mut i64, imag: &mut i64,) -> u8;
    fn mul_op_op_phase_u64(lx: u64, lz: u64, rx: u64, rz: u64,) -> u64;
    fn mul_op_state_phase_u64(lx: u64, lz: u64, r: u64,) -> u64;
}

#[cfg(test)]
mod tests {
    use super::*;

    const HEADER: &str = include_str!("../../include/bawersun.h");

    /// A name, the types of the arguments, and that of what comes back.
    type Function = (String, Vec<String>, String);

    /// The code of the header, without comments and directives.
    fn code() -> String {
        let parts = HEADER.split("/*").map(|part| part.split_once("*/").map_or(part, |(_, code)| code));
        let text = parts.collect::<String>().replace("\\\n", " ");
        text.lines().filter(|line| !line.starts_with('#')).collect::<Vec<_>>().join(" ")
    }

    /// The functions of the header, with the types of their arguments and what comes back, in Rust's words.
    fn declared() -> Vec<Function> {
        let one = |text: &str| {
            let (head, arguments) = text.trim().strip_suffix(')')?.rsplit_once('(')?;
            let (back, name) = head.rsplit_once(' ')?;
            let back = back.rsplit(['{', '}']).next()?;
            Some((name.to_string(), arguments.split(',').map(type_of).collect(), type_of(&format!("{back} it"))))
        };
        code().split(';').filter_map(one).collect()
    }

    /// The type of an argument as the header has it.
    fn type_of(argument: &str) -> String {
        let (words, name) = argument.trim().rsplit_once(' ').expect("a type and a name");
        let plain = match words.trim_start_matches("const ") {
            "size_t" => "usize",
            "double" => "f64",
            "uint8_t" => "u8",
            "uint16_t" => "u16",
            "uint64_t" => "u64",
            "int32_t" => "i32",
            "int64_t" => "i64",
            other => panic!("{other} of {argument}"),
        };
        match (name.starts_with('*'), words.starts_with("const ")) {
            (false, _) => plain.to_string(),
            (true, true) => format!("*const {plain}"),
            (true, false) => format!("*mut {plain}"),
        }
    }

    /// The types that an argument of the list above goes over as.
    fn passed(argument: &str) -> Vec<String> {
        let (_, given) = argument.split_once(": ").expect("a name and a type");
        let slice = |text: &str| text.strip_prefix('[').and_then(|text| text.strip_suffix(']')).map(str::to_string);
        match (given.strip_prefix("&mut "), given.strip_prefix('&')) {
            (Some(to), _) => match slice(to) {
                Some(one) => vec![format!("*mut {one}"), "usize".to_string()],
                None => vec![format!("*mut {to}")],
            },
            (_, Some(of)) => vec![format!("*const {}", slice(of).expect("a slice")), "usize".to_string()],
            _ => vec![given.to_string()],
        }
    }

    fn called() -> Vec<Function> {
        let one = |(name, arguments, back): &(&str, &str, &str)| {
            let words = arguments.split_whitespace().collect::<Vec<_>>().join(" ");
            let types = words.trim_end_matches(',').split(", ").flat_map(passed).collect();
            (name.to_string(), types, back.to_string())
        };
        LISTED.iter().map(one).collect()
    }

    #[test]
    fn the_header_declares_what_is_called() {
        let (mut declared, mut called) = (declared(), called());
        declared.sort();
        called.sort();
        assert!(called.len() > 20);
        assert_eq!(called, declared);
    }

    #[test]
    fn a_value_that_is_not_given_stays() {
        let (x, z, phases, mut changed) = ([1], [0], [0], [1]);
        let (mut small, mut middle, mut long, mut size, mut other) = (77, 77, 77, 77, 77);
        assert_eq!(bawersun_get_qubit(1, 1, &x, &z, &phases, 1, 0, &mut small), 6);
        assert_eq!(bawersun_count(1, 1, &x, &z, &phases, 0, 4, &mut long), 6);
        assert_eq!(bawersun_phase_of_mul(1, 1, &x, &z, &phases, 0, 1, &mut small), 6);
        assert_eq!(bawersun_phase_of_mul_by_table(1, 1, &x, &z, &phases, 0, 1, &mut small), 6);
        assert_eq!(bawersun_commutes_with(1, 1, &x, &z, &phases, 0, 1, &mut small), 6);
        assert_eq!(bawersun_belongs_to_centralizer(1, 1, &x, &z, &phases, 1, &mut small), 6);
        assert_eq!(bawersun_imul_state(1, 1, &x, &z, &phases, 1, &mut changed, &mut small), 6);
        assert_eq!(bawersun_imul(1, 1, &mut changed, &mut [0], &mut [0], 0, 1, &mut middle), 6);
        assert_eq!(
            bawersun_canonicalize(
                1,
                1,
                &mut changed,
                &mut [0],
                &mut [0],
                &[2],
                &[0],
                &[],
                &mut [],
                &mut size,
                &mut other
            ),
            6
        );
        assert_eq!(bawersun_canonicalize_all(1, 1, &mut changed, &mut [], &mut [0], &mut [], &mut size, &mut other), 3);
        assert_eq!(
            bawersun_check(1, 1, &mut changed, &mut [0], &mut [0], &[], &[], &[], &[0], &x, &z, &phases, &mut size),
            9
        );
        assert_eq!(bawersun_undo(1, 1, &mut changed, &mut [0], &mut [0], &[], &[], &[0], &mut size), 9);
        assert_eq!(bawersun_fmt_elem(1, 1, &x, &z, &phases, 0, &mut [0], &mut size), 14);
        assert_eq!(
            bawersun_pwl_write(1, 1, &x, &z, &phases, &[], &[], &[], &[], &x, &z, &phases, &mut [0; 9], &mut size),
            14
        );
        let mut front = [77; 6];
        let [n, m, order, listed, extra, entries] = &mut front;
        assert_eq!(bawersun_pwl_open(b"PWL", n, m, order, listed, extra, entries), 18);
        let (mut units, mut claimed) = ([7], [7]);
        let read = bawersun_pwl_read(
            b"PWL\x01",
            &mut units,
            &mut changed,
            &mut [0],
            &mut [0],
            &mut claimed,
            n,
            m,
            order,
            listed,
            extra,
            entries,
        );
        assert_eq!((read, front, units, claimed), (18, [77; 6], [7], [7]));
        let (mut re, mut im, mut real, mut imag) = (7.5, 7.5, 77, 77);
        assert_eq!(bawersun_mat_elem_cmpnts_from_presorted(1, &[0], &[0], &[1.0], &[0.0], 0, 1, &mut re, &mut im), 255);
        assert_eq!(
            bawersun_mat_elem_cmpnts_from_presorted_whole(1, &[0], &[0], &[1], &[0], 0, 1, &mut real, &mut imag),
            255
        );
        let least = [i32::MIN];
        let terms = ([0], [0], [1], [0]);
        let sum = bawersun_mat_elem_from_presorted(
            1,
            &terms.0,
            &terms.1,
            &terms.2,
            &terms.3,
            &[0],
            &least,
            &least,
            &[0],
            &least,
            &least,
            &mut real,
            &mut imag,
        );
        assert_eq!(sum, 16);
        assert_eq!((small, middle, long, size, other), (77, 77, 77, 77, 77));
        assert_eq!((re, im, real, imag, changed), (7.5, 7.5, 77, 77, [1]));
    }
}
