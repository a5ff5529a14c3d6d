//! Measures the proved code beside ISA-L and gf-complete, where the system has them: they are looked for when the program runs. Both are written
//! by hand for this processor's vector instructions. ISA-L works in another field, that of the polynomial 0x11d, so that its bytes are not
//! compared; gf-complete is set to the field of 0x11b, and its bytes are.
use crate::{Bytes, ours, table};
use std::ffi::{CStr, c_char, c_int, c_void};
use std::hint::black_box;
use std::mem::transmute;
use std::time::Instant;

unsafe extern "C" {
    fn dlopen(name: *const c_char, flags: c_int) -> *mut c_void;
    fn dlsym(library: *mut c_void, name: *const c_char) -> *mut c_void;
}

const RTLD_NOW: c_int = 2;

// The addresses of a library's functions.
fn found<const N: usize>(library: &CStr, names: [&CStr; N]) -> Option<[*mut c_void; N]> {
    let handle = unsafe { dlopen(library.as_ptr(), RTLD_NOW) };
    if handle.is_null() {
        println!("\n{} is not at hand", library.to_str().unwrap());
        return None;
    }
    let functions = names.map(|name| unsafe { dlsym(handle, name.as_ptr()) });
    functions.iter().all(|function| !function.is_null()).then_some(functions)
}

// ISA-L. A factor needs a table of 32 bytes.
struct Isal {
    init_tables: unsafe extern "C" fn(c_int, c_int, *const u8, *mut u8),
    encode_data: unsafe extern "C" fn(c_int, c_int, c_int, *const u8, *const *const u8, *const *mut u8),
    mad: unsafe extern "C" fn(c_int, c_int, c_int, *const u8, *const u8, *mut u8),
}

impl Isal {
    fn new() -> Option<Isal> {
        let [init_tables, encode_data, mad] = found(c"libisal.so.2", [c"ec_init_tables", c"ec_encode_data", c"gf_vect_mad"])?;
        Some(unsafe { Isal { init_tables: transmute(init_tables), encode_data: transmute(encode_data), mad: transmute(mad) } })
    }

    fn tables(&self, factors: &[u8], tables: &mut [u8]) {
        assert!(tables.len() >= 32 * factors.len());
        unsafe { (self.init_tables)(factors.len() as c_int, 1, factors.as_ptr(), tables.as_mut_ptr()) }
    }

    fn tables_of(&self, factors: &[u8]) -> Vec<u8> {
        let mut tables = vec![0; 32 * factors.len()];
        self.tables(factors, &mut tables);
        tables
    }

    // The sum of the rows, each by its factor.
    fn code(&self, rows: &[&[u8]], tables: &[u8], out: &mut [u8]) {
        assert!(tables.len() >= 32 * rows.len() && rows.iter().all(|row| row.len() == out.len()));
        let sources: Vec<*const u8> = rows.iter().map(|row| row.as_ptr()).collect();
        unsafe { (self.encode_data)(out.len() as c_int, rows.len() as c_int, 1, tables.as_ptr(), sources.as_ptr(), &out.as_mut_ptr()) }
    }

    fn multiply_add(&self, dst: &mut [u8], src: &[u8], table: &[u8]) {
        assert!(table.len() >= 32 && src.len() == dst.len());
        unsafe { (self.mad)(dst.len() as c_int, 1, 0, table.as_ptr(), src.as_ptr(), dst.as_mut_ptr()) }
    }
}

// ISA-L leaves the upper halves of the vector registers in use, which makes code for the lower ones about half as fast.
fn clear_upper_halves() {
    #[cfg(target_arch = "x86_64")]
    {
        #[target_feature(enable = "avx")]
        fn clear() {
            std::arch::x86_64::_mm256_zeroupper();
        }
        if std::is_x86_feature_detected!("avx") {
            unsafe { clear() }
        }
    }
}

// gf-complete's record of a field.
#[repr(C)]
struct Gf {
    multiply: *mut c_void,
    divide: *mut c_void,
    inverse: *mut c_void,
    multiply_region: Option<unsafe extern "C" fn(*mut Gf, *const u8, *mut u8, u32, c_int, c_int)>,
    extract_word: *mut c_void,
    scratch: *mut c_void,
}

type InitHard = unsafe extern "C" fn(*mut Gf, c_int, c_int, c_int, c_int, u64, c_int, c_int, *mut Gf, *mut c_void) -> c_int;

// A product by two tables of 16 bytes, which its default is where the processor has them.
const SPLIT_TABLE: c_int = 11;

impl Gf {
    fn new() -> Option<Gf> {
        let [init] = found(c"libgf_complete.so.1", [c"gf_init_hard"])?;
        let null = std::ptr::null_mut();
        let mut gf = Gf { multiply: null, divide: null, inverse: null, multiply_region: None, extract_word: null, scratch: null };
        let init: InitHard = unsafe { transmute(init) };
        let made = unsafe { init(&mut gf, 8, SPLIT_TABLE, 0, 0, 0x11b, 8, 4, std::ptr::null_mut(), null) };
        (made == 1).then_some(gf)
    }

    // Both rows have to lie alike to 16 bytes.
    fn multiply_add(&mut self, dst: &mut [u8], src: &[u8], factor: u8) {
        assert!(src.len() == dst.len() && src.as_ptr().align_offset(16) == dst.as_ptr().align_offset(16));
        let region = self.multiply_region.unwrap();
        unsafe { region(self, src.as_ptr(), dst.as_mut_ptr(), factor.into(), dst.len() as c_int, 1) }
    }

    fn code(&mut self, rows: &[&[u8]], vector: &[u8], out: &mut [u8]) {
        out.fill(0);
        rows.iter().zip(vector).for_each(|(row, factor)| self.multiply_add(out, row, *factor));
    }
}

// A buffer whose first byte lies at a multiple of 64.
struct Aligned(Vec<u8>, usize, usize);

impl Aligned {
    fn new(bytes: &[u8]) -> Aligned {
        let room = vec![0; bytes.len() + 64];
        let at = room.as_ptr().align_offset(64);
        let mut aligned = Aligned(room, at, bytes.len());
        aligned.get().copy_from_slice(bytes);
        aligned
    }

    fn get(&mut self) -> &mut [u8] {
        &mut self.0[self.1..self.1 + self.2]
    }
}

// A way to do the work, called with the number of the turn; none where its library is not at hand.
type Way<'a> = Option<Box<dyn FnMut(usize) + 'a>>;

// The best seconds of a call of each way, over laps that take turns.
fn best(turns: usize, calls: usize, mut ways: [Way; 4]) -> [f64; 4] {
    let mut best = [f64::MAX; 4];
    for _ in 0..turns {
        for (best, way) in best.iter_mut().zip(&mut ways) {
            let Some(way) = way else { continue };
            let start = Instant::now();
            (0..calls).for_each(way);
            *best = best.min(start.elapsed().as_secs_f64() / calls as f64);
            clear_upper_halves();
        }
    }
    best
}

fn line(name: &str, size: String, bytes: usize, best: [f64; 4]) {
    let cell = |seconds: f64| if seconds == f64::MAX { "not at hand".to_string() } else { table::speed(bytes, seconds) };
    let [proved, made, before, gf] = best.map(cell);
    table::line(&[name.to_string(), size, proved, made, before, gf]);
}

struct Libraries {
    isal: Option<Isal>,
    gf: Option<Gf>,
}

impl Libraries {
    fn multiply_add(&mut self, len: usize) {
        let mut bytes = Bytes(0x2545f4914f6cdd1d);
        let factors: Vec<u8> = (0..251).map(|_| bytes.next() % 254 + 2).collect();
        let (factors, row) = (&factors, bytes.row(len));
        let [mut a, mut b, mut c, mut d] = [&row; 4].map(|row| Aligned::new(row));
        let mut src = Aligned::new(&bytes.row(len));
        let src = &*src.get();
        if let Some(gf) = &mut self.gf {
            for factor in 2..=255 {
                gf.multiply_add(d.get(), src, factor);
                let answer = ours::mul_vec_by_scalar_then_add_into_vec(a.get(), src, factor);
                assert!(answer == 0 && a.get() == d.get(), "gf-complete: the bytes differ");
            }
        }
        let factor = |i: usize| black_box(factors[i % factors.len()]);
        let mut table = [0; 32];
        let proved = move |i| assert!(ours::mul_vec_by_scalar_then_add_into_vec(black_box(a.get()), src, factor(i)) == 0);
        let made = self.isal.as_ref().map(|isal| {
            move |i| {
                isal.tables(&[factor(i)], &mut table);
                isal.multiply_add(black_box(b.get()), src, &table);
            }
        });
        let before = self.isal.as_ref().map(|isal| {
            let tables = isal.tables_of(factors);
            move |i| isal.multiply_add(black_box(c.get()), src, &tables[32 * (i % factors.len())..])
        });
        let region = self.gf.as_mut().map(|gf| move |i| gf.multiply_add(black_box(d.get()), src, factor(i)));
        let best = best(1000, 200_000 / len + 20, [Some(Box::new(proved)), boxed(made), boxed(before), boxed(region)]);
        line("multiply and add", table::grouped(len), len, best);
    }

    // The sum of k rows by a vector: the payload of a piece, and ours copies the vector too.
    fn code(&mut self, k: usize, len: usize, turns: usize) {
        let mut bytes = Bytes(0x8cb92ba72f3d8dd7);
        let vectors: Vec<Vec<u8>> = (0..16).map(|_| bytes.row(k)).collect();
        let mut block = Aligned::new(&vec![0; k * len]);
        let encoder = ours::Encoder::new(&bytes.row(k * len - 1), block.get(), k).unwrap();
        let block = &*block.get();
        let (rows, mut piece) = (&block.chunks(len).collect::<Vec<_>>(), vec![0; k + len]);
        let [mut b, mut c, mut d] = [(); 3].map(|_| Aligned::new(&vec![0; len]));
        if let Some(gf) = &mut self.gf {
            for vector in &vectors {
                gf.code(rows, vector, d.get());
                let answer = encoder.code_with_buf(block, vector, &mut piece);
                assert!(answer == 0 && d.get() == &piece[k..], "gf-complete: the bytes differ");
            }
        }
        let vector = |i: usize| black_box(&*vectors[i]);
        let mut tables = vec![0; 32 * k];
        let proved = move |i| assert!(encoder.code_with_buf(black_box(block), vector(i), black_box(&mut piece)) == 0);
        let made = self.isal.as_ref().map(|isal| {
            move |i| {
                isal.tables(vector(i), &mut tables);
                isal.code(rows, &tables, black_box(b.get()));
            }
        });
        let before = self.isal.as_ref().map(|isal| {
            let tables: Vec<Vec<u8>> = vectors.iter().map(|vector| isal.tables_of(vector)).collect();
            move |i: usize| isal.code(rows, &tables[i], black_box(c.get()))
        });
        let region = self.gf.as_mut().map(|gf| move |i| gf.code(rows, vector(i), black_box(d.get())));
        let best = best(turns, vectors.len(), [Some(Box::new(proved)), boxed(made), boxed(before), boxed(region)]);
        line("code", table::size(k, len), k * len, best);
    }
}

fn boxed<'a>(way: Option<impl FnMut(usize) + 'a>) -> Way<'a> {
    way.map(|way| Box::new(way) as Box<dyn FnMut(usize) + 'a>)
}

pub fn run() {
    let mut libraries = Libraries { isal: Isal::new(), gf: Gf::new() };
    table::head(&["work", "bytes", "proved, GB/s", "ISA-L, GB/s", "ISA-L, tables made before, GB/s", "gf-complete, GB/s"]);
    libraries.multiply_add(512);
    libraries.multiply_add(4352);
    libraries.code(32, 480, 3000);
    libraries.code(256, 4096, 100);
}
