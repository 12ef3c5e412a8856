use plain::*;

/// The value word by integers alone: |v| is m × 2^e.
fn by_integers(v: f32) -> u16 {
    let bits = v.to_bits() & 0x7fff_ffff;
    let (m, e) = match bits >> 23 {
        0 => (bits as u128, -149),
        x => ((bits & 0x7f_ffff | 0x80_0000) as u128, x as i32 - 150),
    };
    for (places, ten) in [(3, 1_000), (2, 100), (1, 10), (0, 1)] {
        let digits = if e >= 0 {
            if e > 20 {
                u128::MAX
            } else {
                (m * ten) << e
            }
        } else if e < -60 {
            0
        } else {
            let unit = 1u128 << -e;
            (m * ten * 2 + unit) / (2 * unit)
        };
        if digits <= 6_999 {
            let sign = if v.is_sign_negative() && digits > 0 { 32_768 } else { 0 };
            return sign + places * 8_192 + digits as u16;
        }
    }
    6_999 + if v.is_sign_negative() { 32_768 } else { 0 }
}

#[test]
fn value_words() {
    let mut bits = 0u32;
    let mut n = 0;
    loop {
        let v = f32::from_bits(bits);
        if v.is_finite() {
            assert_eq!(value_word(v), by_integers(v), "{v:?}");
            n += 1;
        }
        match bits.checked_add(10_007) {
            Some(next) => bits = next,
            None => break,
        }
    }
    // Round the halves and the bounds.
    for (places, ten) in [(3, 1_000.0), (2, 100.0), (1, 10.0), (0, 1.0f64)] {
        for d in 0..7_002 {
            let near = ((d as f64 + 0.5) / ten) as f32;
            for bits in near.to_bits() - 2..=near.to_bits() + 2 {
                for v in [f32::from_bits(bits), -f32::from_bits(bits)] {
                    assert_eq!(value_word(v), by_integers(v), "{v:?} {places}");
                    n += 1;
                }
            }
        }
    }
    eprintln!("{n} value words agree");
    for (v, word) in [
        (2.5, 27_076),
        (-0.0625, 57_407),
        (7.0, 2 * 8_192 + 700),
        (70.0, 8_192 + 700),
        (6_999.5, 6_999),
        (6.9996, 2 * 8_192 + 700),
        (-99_999.0, 39_767),
        (-0.0, 24_576),
    ] {
        assert_eq!(value_word(v), word, "{v}");
    }
}

/// A word is listed exactly if some number has it: the nearest to its own value does if any does.
#[test]
fn words_no_value_has() {
    for word in 0..=u16::MAX {
        let ten = [1.0, 10.0, 100.0, 1_000.0][(word / 8_192 % 4) as usize];
        let v = (word % 8_192) as f32 / ten * if word < 32_768 { 1.0 } else { -1.0 };
        let state = State { filled: 2, ..State::fresh() };
        let listed = list(&state, &[64_613, word], 0, 1);
        if word >= 64_512 {
            assert_eq!(listed, Listed::None);
            assert_eq!(list(&state, &[64_613, word], 1, 0), Listed::Id(word - 64_512));
        } else if value_word(v) == word {
            let value = Value { negative: word >= 32_768, places: (word / 8_192 % 4) as u8, digits: word % 8_192 };
            assert_eq!(listed, Listed::Value(value));
        } else {
            assert_eq!(list(&state, &[64_613, word], 0, 0), Listed::None);
        }
    }
}
