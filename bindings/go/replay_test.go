package sipua

import (
	"encoding/hex"
	"fmt"
	"net/netip"
	"os"
	"regexp"
	"strconv"
	"strings"
	"testing"
)

// Replays of event files and session files (docs/FORMATS.md): each command by its struct, each
// output by its fields. The file that SIP_UA_REPLAYS names has the names of an event file and its
// output file, one after another.
func TestReplays(t *testing.T) {
	list, err := os.ReadFile(os.Getenv("SIP_UA_REPLAYS"))
	if err != nil {
		t.Skip("SIP_UA_REPLAYS: ", err)
	}
	files := strings.Fields(string(list))
	asked := 0
	for at := 0; at+1 < len(files); at += 2 {
		events, err := os.ReadFile(files[at])
		must(t, err)
		wanted, err := os.ReadFile(files[at+1])
		must(t, err)
		replayed := replay{t: t}
		if told := replayed.of(string(events)); told != string(wanted) {
			t.Errorf("differs: %s\n%s", files[at], told)
		}
		asked += replayed.asked
	}
	t.Logf("%d replays, %d commands by their fields", len(files)/2, asked)
}

type replay struct {
	t             *testing.T
	agent         *Agent
	configuration Configuration
	moment        uint64
	headers       []string
	asked         int
	told          strings.Builder
}

func (r *replay) of(events string) string {
	lines := strings.Split(events, "\n")
	r.told.WriteString("sip-outputs 1\n")
	for _, line := range lines[1 : len(lines)-1] {
		word, rest, _ := strings.Cut(line, " ")
		switch {
		case word == "round":
			r.runBefore(r.number(rest))
		case r.agent == nil:
			r.configure(word, rest)
		case word == "":
			r.headers = append(r.headers, line)
		default:
			r.event(line)
		}
	}
	if r.agent != nil {
		r.runBefore(0)
		must(r.t, r.agent.Close())
	}
	return r.told.String()
}

func (r *replay) configure(word, rest string) {
	switch word {
	case "local":
		r.configuration.Local = netip.MustParseAddrPort(rest)
	case "first":
		r.configuration.First = r.number(rest)
	case "seed":
		_, err := hex.Decode(r.configuration.Seed[:], []byte(rest))
		must(r.t, err)
	}
}

// Runs the round above this one, or begins the agent.
func (r *replay) runBefore(moment uint64) {
	var err error
	if r.agent == nil {
		r.agent, err = New(r.configuration)
		must(r.t, err)
	} else {
		outputs, err := r.agent.Run(r.moment)
		must(r.t, err)
		fmt.Fprintf(&r.told, "round %d\n", r.moment)
		for _, output := range outputs {
			r.told.WriteString(written(output))
		}
	}
	r.moment = moment
}

func (r *replay) event(line string) {
	headers := make([]Header, 0, len(r.headers))
	for _, given := range r.headers {
		name, value, _ := strings.Cut(unspelled(given[1:]), ":")
		headers = append(headers, Header{strings.TrimSpace(name), strings.Trim(value, " \t")})
	}
	var err error
	if command := r.command(line, headers); command != nil {
		r.asked++
		_, err = r.agent.Do(command)
	} else {
		_, err = r.agent.Command(strings.Join(append(r.headers, line), "\n"))
	}
	must(r.t, err)
	r.headers = nil
}

// The command of a line, or nil for what no struct says: a status that isn't 101 to 699, and an
// event that is no command.
func (r *replay) command(line string, headers []Header) Command {
	most := -1
	if strings.HasPrefix(line, "respond ") {
		most = 7
	}
	fields := strings.SplitN(line, " ", most)
	texts := make([]string, len(fields))
	for i, field := range fields {
		if field != "-" {
			texts[i] = unspelled(field)
		}
	}
	last := []byte(texts[len(texts)-1])
	switch fields[0] {
	case "invite":
		return Invite{texts[1], netip.MustParseAddrPort(fields[2]), texts[3], texts[4], texts[5],
			fields[6] == "supported", fields[6] == "required", last, headers}
	case "plain":
		return Plain{texts[1], netip.MustParseAddrPort(fields[2]), texts[3], texts[4], texts[5],
			texts[6], last, headers}
	case "request":
		return Request{texts[1], texts[2], texts[3], texts[4], last, headers}
	case "respond":
		status := int(r.number(fields[3]))
		if status < 101 || status > 699 {
			return nil
		}
		return Response{texts[1], r.id(fields[2]), status, unspelled(fields[6]),
			fields[4] == "reliable", []byte(texts[5]), headers}
	case "ack":
		return Ack{texts[1], texts[2], texts[3], last, headers}
	case "prack":
		return Prack{texts[1], texts[2], texts[3], last, headers}
	case "cancel":
		return Cancel{texts[1], r.id(fields[2])}
	case "abandon":
		if len(fields) == 3 {
			return AbandonRequest{texts[1], r.id(fields[2])}
		}
		return AbandonDialog{texts[1], texts[2], texts[3]}
	}
	return nil
}

func (r *replay) number(digits string) uint64 {
	number, err := strconv.ParseUint(digits, 10, 64)
	must(r.t, err)
	return number
}

func (r *replay) id(field string) ID {
	round, place, _ := strings.Cut(field, ".")
	return ID{r.number(round), uint32(r.number(place))}
}

var escapes = regexp.MustCompile(`\\(?:x..|.)`)

// The bytes that a rest spells.
func unspelled(rest string) string {
	return escapes.ReplaceAllStringFunc(rest, func(found string) string {
		if data, err := hex.DecodeString(found[2:]); found[1] == 'x' && err == nil {
			return string(data)
		}
		return string(" \r\n\t\\"[strings.IndexByte(`srnt\`, found[1])])
	})
}

// Bytes as a rest.
func spelled(data string) string {
	var rest strings.Builder
	for _, b := range []byte(data) {
		letter := strings.IndexByte("\r\n\t\\", b)
		switch {
		case letter >= 0:
			rest.WriteString(`\` + `rnt\`[letter:letter+1])
		case b >= ' ' && b <= '~':
			rest.WriteByte(b)
		default:
			fmt.Fprintf(&rest, `\x%02x`, b)
		}
	}
	return rest.String()
}

// Bytes as a word.
func word(data string) string {
	switch data {
	case "":
		return "-"
	case "-":
		return `\x2d`
	}
	return strings.ReplaceAll(spelled(data), " ", `\s`)
}

var dropWords = strings.Fields("NotOurs NoTransaction TooLong NoEmptyLine BadStartLine BadHeader " +
	"Missing Repeated BadNumber OldBranch MethodMismatch Truncated NoMemory")

// The line of an output.
func written(output Output) string {
	switch output.Kind {
	case Send:
		return fmt.Sprintf("send %v %s\n", output.To, spelled(string(output.Body)))
	case Drop:
		reason := dropWords[output.Reason-1] + " " + output.Header
		return fmt.Sprintf("drop %d %s\n", output.Place, strings.TrimSpace(reason))
	}
	tags := word(output.LocalTag) + " " + word(output.RemoteTag)
	body := word(string(output.Body))
	fields := []any{}
	switch output.Kind {
	case NoticeRequest:
		fields = []any{output.ID, output.Method, tags, body}
	case NoticeResponse:
		fields = []any{output.ID, output.Status, tags, body}
	case NoticeAck:
		fields = []any{output.ID, body}
	case NoticePrack:
		fields = []any{output.ID, output.RSeq, body}
	case NoticeEnded:
		fields = []any{tags}
	case NoticeRefused:
		fields = []any{output.ID.Place, uint32(output.Refusal)}
	default:
		fields = []any{output.ID}
	}
	line := fmt.Sprintf("notice %s %v", word(output.CallID), output.Kind)
	for _, field := range fields {
		line += fmt.Sprintf(" %v", field)
	}
	return line + "\n"
}
