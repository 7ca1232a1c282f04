package macaroond

// Version 2 binary.
//
//	token      = version token-part *caveat end signature
//	token-part = [location] identifier end
//	caveat     = [location] identifier [vid] end
//	field      = varint(type) varint(length) that many bytes

// The types of fields, and the mark of an end.
const (
	fieldEnd        = 0
	fieldLocation   = 1
	fieldIdentifier = 2
	fieldVid        = 4
	fieldSignature  = 6
)

// Ten groups of seven bits are enough for any number of 64 bits; of the tenth one bit is left.
const varintBytesMax = 10

// fieldReader reads fields one after the other; once something is wrong, all that it gives is nothing.
type fieldReader struct {
	rest string
	err  error
}

// readBinary reads the token that these bytes spell; the caller has looked at the version.
func readBinary(content string) (parts, error) {
	reader := fieldReader{rest: content[1:]}
	var read parts
	read.location, _ = reader.field(fieldLocation)
	read.identifier = reader.needed(fieldIdentifier)
	reader.end()
	for reader.err == nil && reader.rest != "" && reader.rest[0] != fieldEnd {
		read.caveats = append(read.caveats, reader.caveat())
	}
	reader.end()
	read.signature = reader.needed(fieldSignature)
	reader.demand(len(read.signature) == signatureSize && reader.rest == "" && isUTF8(read.location))
	return read, reader.err
}

func (r *fieldReader) caveat() caveat {
	var read caveat
	read.location, _ = r.field(fieldLocation)
	read.identifier = r.needed(fieldIdentifier)
	_, read.hasVid = r.field(fieldVid)
	r.end()
	r.demand(isUTF8(read.location))
	return read
}

func (r *fieldReader) demand(holds bool) {
	if r.err == nil {
		r.err = demand(holds)
	}
}

func (r *fieldReader) byte() byte {
	r.demand(r.rest != "")
	if r.err != nil {
		return 0
	}
	first := r.rest[0]
	r.rest = r.rest[1:]
	return first
}

// varint reads an unsigned LEB128 number without a zero group at its end.
func (r *fieldReader) varint() (number uint64) {
	for group := 0; group < varintBytesMax; group++ {
		byte := r.byte()
		number |= uint64(byte&0x7f) << (7 * group)
		if byte < 0x80 {
			isLost := group == varintBytesMax-1 && byte > 1
			r.demand((byte != 0 || group == 0) && !isLost)
			return number
		}
	}
	r.demand(false)
	return number
}

// field gives the bytes of a field of this type, where one is next.
func (r *fieldReader) field(kind uint64) (content string, isThere bool) {
	begin := r.rest
	if r.varint() != kind {
		r.rest = begin
		return "", false
	}
	size := r.varint()
	r.demand(size <= uint64(len(r.rest)))
	if r.err != nil {
		return "", false
	}
	content, r.rest = r.rest[:size], r.rest[size:]
	return content, true
}

// needed gives the bytes of a field that has to be there.
func (r *fieldReader) needed(kind uint64) string {
	content, isThere := r.field(kind)
	r.demand(isThere)
	return content
}

func (r *fieldReader) end() { r.demand(r.byte() == fieldEnd) }
