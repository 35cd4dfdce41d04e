"""The gateway of tools/lost-gateway: LoST in XML over HTTP in front, the lines of docs/PROTOCOL.md behind."""
