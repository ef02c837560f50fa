//! Fields written by hand, one for each odd thing.

/// What comes behind the name and its colon.
const RESTS: &[&[u8]] = &[
    b"none\r\n",
    b" none\r\n",
    b"\tDKIM\r\n",
    b" spf , dkim \r\n",
    b" dkim,spf\r\n",
    b" none",
    b" none\r",
    b" none\n",
    b" none\r\n\r\n",
    b" none\r\n \r\n",
    b" none\r\n \r\n ",
    b" none\r\n \r\n \r\n",
    b" none\r\nX",
    b" none\r\n ",
    b" none\r\n (a)\r\n \r\n",
    b" none\r\n (a)\r\n \r\n \r\n",
    b" none, dkim\r\n",
    b" dkim, none\r\n",
    b" dkim, spf, none\r\n",
    b" dkimspf\r\n",
    b" dkimdkim\r\n",
    b" spf spf\r\n",
    b" dkim spf\r\n",
    b" dkim(a)spf\r\n",
    b" dkim,\r\n",
    b" dkim,, spf\r\n",
    b" ,dkim\r\n",
    b" dk(a)im\r\n",
    b"\r\n",
    b"\r\n none\r\n",
    b"\r\nnone\r\n",
    b" \r\n \r\n none\r\n",
    b"\r\n (a)\r\n none\r\n",
    b"\r none\r\n",
    b"\n none\r\n",
    b" dkim\r\n ,\r\n spf\r\n",
    b" dkim\r\n \r\n , spf\r\n",
    b"(a\r\n b\r\n c)none\r\n",
    b"(a\r\n \r\n b)none\r\n",
    b"(a\r\nb)none\r\n",
    b"(a\nb)none\r\n",
    b"(\\()none\r\n",
    b"(\\))none\r\n",
    b"(\\\\)none\r\n",
    b"(\\ \\\t)none\r\n",
    b"(\\\0)none\r\n",
    b"(\\\r\n )none\r\n",
    b"(\\\x80)none\r\n",
    b"(\x01)none\r\n",
    b"(\x7f)none\r\n",
    b"(\xc3\xa9)none\r\n",
    b"(~!)none\r\n",
    b"((((((((x))))))))none\r\n",
    b"(((((((((x)))))))))none\r\n",
    b"((((((((",
    b"(((((((((",
    b"(((((((((\0",
    b"((((((((\0(",
    b"(((((((()(()))))))))none\r\n",
    b"(((((((()()())()))))))none\r\n",
    b"()()()()()()()()()()none\r\n",
    b"(()()()()()()()()()())none\r\n",
    b"((((((((\\())))))))none\r\n",
    b"((((((((\\\\(",
    b" dkim, dkim\r\n",
    b" dkim, dkim",
    b" dkim, dkimx",
    b" dkim, dkix",
    b" dkim, dki",
    b" spf,SPF\r\n",
    b" spf,sp\r\n",
    b" dkim,spf,dkim\r\n",
    b" dkim,spf,spf\r\n",
    b" spf,spf(((((((((\r\n",
    b" spf(((((((((,spf\r\n",
    b" spf,spf\0\r\n",
];
/// Texts whose name is not as it is written.
const WHOLE: &[&[u8]] = &[
    b"",
    b"\r\n",
    b" Identity-Alignment: none\r\n",
    b"Identity-Alignment : none\r\n",
    b"Identity-Alignment\t: none\r\n",
    b"Identity-Alignment(a): none\r\n",
    b"Identity-Alignment none\r\n",
    b"Identity Alignment: none\r\n",
    b"identity-alignment: dkim\r\n",
    b"IDENTITY-ALIGNMENT: SPF\r\n",
    b"Identity-Alignmen",
    b"Subject: none\r\n",
];
/// Cut at every place, and with every octet at every place.
const LONG: &[u8] = b"Identity-Alignment:(a\\)\r\n\t()) DKIM \r\n ,(b)spf\r\n \r\n";

/// All of them.
pub fn fields() -> Vec<Vec<u8>> {
    let behind = |rest: &&[u8]| [b"Identity-Alignment:", *rest].concat();
    let mut fields: Vec<Vec<u8>> = RESTS.iter().map(behind).collect();
    fields.extend(WHOLE.iter().map(|text| text.to_vec()));
    for place in 0..=LONG.len() {
        let (before, after) = LONG.split_at(place);
        fields.push(before.to_vec());
        for octet in 0..=255 {
            fields.push([before, &[octet], after.get(1..).unwrap_or_default()].concat());
            fields.push([before, &[octet], after].concat());
        }
    }
    fields
}
