//! The build script's SHA-256 against the examples of FIPS 180-4.

#[path = "../build/sha256.rs"]
mod sha256;

#[test]
fn known_digests() {
    let known = [
        ("", "e3b0c44298fc1c149afbf4c8996fb92427ae41e4649b934ca495991b7852b855"),
        ("abc", "ba7816bf8f01cfea414140de5dae2223b00361a396177a9cb410ff61f20015ad"),
        (
            "abcdbcdecdefdefgefghfghighijhijkijkljklmklmnlmnomnopnopq",
            "248d6a61d20638b8e5c026930c3e6039a33ce45964ff2167f6ecedd419db06c1",
        ),
    ];
    for (message, digest) in known {
        assert_eq!(sha256::hex_digest(message.as_bytes()), digest);
    }
}
