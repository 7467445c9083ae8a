// Texts for the tests.
export const MARKER = "{size limit reached}";
const DIGITS = "0123456789abcdefghijklmnopqrstuvwxyzABCDEFGHIJKLMNOPQRSTUVWXYZ";

// A symbol whose path doubles with each of 58 tuples, and so exceeds every limit.
export const HOSTILE = `_RMC0${"T".repeat(58)}p${[...Array(58).keys()].map((n) => `B${DIGITS[60 - n]}_E`).join("")}`;

const named = (n) => {
  const size = 30 + (n % 60);
  return `_ZN3std9panicking${size}${"abcdefghij".repeat(9).slice(0, size)}17h3f1a9c2b7d5e6041E`;
};

export const LOG = Array.from({ length: 40000 }, (_, n) => `${n}: ${named(n)}\n`).join("");
// Symbols with their paths, with folded generic arguments and a hash, and without the hash. The paths come from the
// crate with the change that tests/README.md describes.
export const FOLDED = [
  ["_RINvC3foo3barhE", "foo::bar::<_>", "foo::bar::<_>"],
  ["_RNvMC3fooINtB2_3BarlE3baz", "<foo::Bar<_>>::baz", "<foo::Bar<_>>::baz"],
  ["_RINvCs1234_3foo3barhE", "foo[3c1c0]::bar::<_>", "foo::bar::<_>"],
  ["_RINbNbCskIICzLVDPPb_5alloc5alloc8box_freeDINbNiB4_5boxed5FnBoxuEp6OutputuEL_ECs1iopQbuBiw2_3std",
    "alloc[f15a878b47eb696b]::alloc::box_free::<_>", "alloc::alloc::box_free::<_>"],
  ["_ZN11_$LT$u8$GT$3bar17h05af221e174051e9E", "<u8>::bar::h05af221e174051e9", "<u8>::bar"],
];

// The symbols of the corpus that the module cuts at a reference: to follow it, a print would read more than 384 bytes
// again for each byte of the symbol. If a second symbol is given, the folded path is cut too. The second symbol has the type
// `_` in place of generic arguments. So its path is the folded path of the first, with `<>` for `<_>` after an error.
export const REREAD = new Map([
  ["_RINgXC3VecDB_EL_Cs_1as0_3cYcTSB2_B8_Cs2_7closureElE", null],
  ["_RIC12_NzMs2_C7_cloKj0_DB4_B4_EL_Kj0_E", null],
  ["_RIC80_NCYeXs0_B4_IC3stdRL_B5_FG_K14rust_intrinsicDG1_ICu3___gEp2r0yp4__Ya9B7_EL0_B15_EDB4_B4_EL_RL0_hEC1z", null],
  ["_RMC0TTTTTTTTTTTTTTINvC1a1bKj1_Kca_EBf_EBe_EBd_EBc_EBb_EBa_EB9_EB8_EB7_EB6_EB5_EB4_EB3_EB2_E",
    "_RMC0TTTTTTTTTTTTTTINvC1a1bpEBf_EBe_EBd_EBc_EBb_EBa_EB9_EB8_EB7_EB6_EB5_EB4_EB3_EB2_E"],
  ["_RIC0KTTTTTTTTTh1_Bb_EBa_EB9_EB8_EB7_EB6_EB5_EB4_EB3_EE", null],
  ["_RIC0KTTTTTTTTTVC1aUBb_EBa_EB9_EB8_EB7_EB6_EB5_EB4_EB3_EE", null],
  ["_RMC0TTTTTTTTTTTTTTTFG_RL0_hEuBg_EBf_EBe_EBd_EBc_EBb_EBa_EB9_EB8_EB7_EB6_EB5_EB4_EB3_EB2_E",
    "_RMC0TTTTTTTTTTTTTTTFG_RL0_hEuBg_EBf_EBe_EBd_EBc_EBb_EBa_EB9_EB8_EB7_EB6_EB5_EB4_EB3_EB2_E"],
  ["_RIC0KTTTTTTTTTTTTTTTVC1aUBh_EBg_EBf_EBe_EBd_EBc_EBb_EBa_EB9_EB8_EB7_EB6_EB5_EB4_EB3_EE", null],
]);

export const LOG_LINE = LOG.replaceAll("\n", " ");
export const HOSTILE_LINES = `${HOSTILE}\n`.repeat(5000);
export const HOSTILE_LINE = `${HOSTILE} `.repeat(5000);

// Characters that a text loses easily: halves of characters, NUL, both line ends, and a byte order mark.
export const ODD = "\ufeffa\ud800 _ZN3foo3barE\udc00\r\n\0_RNvC3foo3bar\0\n\u{1f600}é _ZN3fooE\r";
export const ODD_RESULT = "\ufeffa\ud800 foo::bar\udc00\r\n\0foo::bar\0\n\u{1f600}é foo\r";

// Texts whose runs stay, or whose characters before a run matter, and their results.
export const BEFORE = [
  ["tag v1.0_RC0 SW_RC0.zip", "tag v1.0_RC0 SW_RC0.zip"],
  [".text._ZN3fooE __imp__ZN3fooE é_ZN3fooE", ".text.foo __imp_foo éfoo"],
  ["int _RC0 = 1; __RC0 \ud800_RC1a", "int _RC0 = 1; __RC0 \ud800_RC1a"],
  ["__ZN3fooE __RNvC3foo3bar\n__ZN1aE", "foo foo::bar\na"],
  ["___ZN3fooE a__ZN3fooE .__ZN1aE __Rest", "__foo a_foo ._a __Rest"],
  ["\ud800__ZN1aE a_ZN1aE", "\ud800a aa"],
  ["a\\n_RNvC3foo3bar \x1b[31m_ZN3fooE\x1b[0m %20_ZN3fooE", "a\\nfoo::bar \x1b[31mfoo\x1b[0m %20foo"],
  ['{"at":"a\\r\\n_RNvC3foo3bar\\t_ZN3fooE"} v1.0_RC0 _RC2_40 __RC0', '{"at":"a\\r\\nfoo::bar\\tfoo"} v1.0_RC0 _RC2_40 __RC0'],
  // As grep --color, strace and Python write it.
  ["T \x1b[01;31m\x1b[K_RNvC3foo3bar\x1b[m\x1b[K", "T \x1b[01;31m\x1b[Kfoo::bar\x1b[m\x1b[K"],
  ['write(1, "x\\n_RNvC3foo3bar\\t_ZN3foo"..., 40) = 40', 'write(1, "x\\nfoo::bar\\t_ZN3foo"..., 40) = 40'],
  ["b'\\x00_RNvC3foo3bar\\xff_ZN3fooE' L_ZN3fooE .L_RNvC3foo3bar", "b'\\x00foo::bar\\xfffoo' Lfoo .Lfoo::bar"],
  ["config_Release __REG _RMC3foox a_RXC0uC1t _RYsC5h05af __RMC3foox", "config_Release __REG <i64> a<() as t> <i16 as h05af> <i64>"],
];
