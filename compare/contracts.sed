# Rattle to Rust: drops the contracts and what is said to the checker, spells the casts of signs for older compilers and
# in Rust's own words what std::num has in Rattle alone.
/^ *ghost use /d
/^ *ghost [a-z_]*\( =\|:\) {.*};$/d
/^ *requires\( [a-z_]*\)\? {.*}$/d
/^ *ensures\( [a-z_]*\)\? {.*}$/d
s/^ *ensures\( [a-z_]*\)\? {.*};$/;/
/^ *#!\?\[tactic(.*)\]$/d
/^#\[derive(Drop)\]$/d
/^use std::num::/d
s/\([a-z_]*\)\.cast_signed()/(\1 as i64)/g
s/\([a-z_]*\)\.cast_unsigned()/(\1 as u64)/g
s/\(std::num::\)\?nearest_\([iu]64\)_to_f64(/(|n: \2| n as f64)(/
s/\(std::num::\)\?truncating_f64_to_i64(/(|x: f64| x as i64)(/
s/\(std::num::\)\?f64_from_bits_with_nan(/f64::from_bits(/
s/\(std::num::\)\?f64_to_bits_with_nan(/(|x: f64| if x.is_nan() { 0x7FF8_0000_0000_0000 } else { x.to_bits() })(/
