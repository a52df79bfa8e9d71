-- A dissector of AFDX (ARINC 664 Part 7) for Wireshark and tshark. It installs with
--
--     mkdir -p ~/.local/lib/wireshark/plugins && cp tools/afdx.lua ~/.local/lib/wireshark/plugins/
--
-- and adds to each frame whose destination begins with 03:00:00:00 the fields
--
--     afdx.vl   the number of the virtual link
--     afdx.net  A or B, by the source address; - for neither
--     afdx.seq  the sequence number, which is the last byte of a frame
--
-- Captures that have the check sequence of each frame, which those of `afdx pcap` have not, need the preference
-- `afdx.fcs`: tshark -o afdx.fcs:TRUE.

local afdx = Proto("afdx", "AFDX")

local vl = ProtoField.uint16("afdx.vl", "Virtual link", base.DEC)
local net = ProtoField.string("afdx.net", "Network")
local seq = ProtoField.uint8("afdx.seq", "Sequence number", base.DEC)
afdx.fields = { vl, net, seq }

afdx.prefs.fcs = Pref.bool("Frames end with their check sequence", false, "The sequence number is then before its four bytes")

-- The three bits of the source address that give the network.
local NETWORKS = { [1] = "A", [2] = "B" }

function afdx.dissector(buffer, packet, tree)
  local last = buffer:reported_len() - (afdx.prefs.fcs and 5 or 1)
  if buffer:len() < 14 or last < 14 or buffer(0, 4):uint() ~= 0x03000000 then
    return
  end
  local branch = tree:add(afdx, buffer())
  branch:add(vl, buffer(4, 2))
  branch:add(net, buffer(11, 1), NETWORKS[math.floor(buffer(11, 1):uint() / 32)] or "-")
  if last < buffer:len() then
    branch:add(seq, buffer(last, 1))
  end
end

register_postdissector(afdx)
