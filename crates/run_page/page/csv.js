// The rows that are found, as comma-separated values (RFC 4180, with a line feed at each line's end).
const COLUMNS = ['packet', 'second', 'utc', 'record', 'kind', 'rule', 'sender', 'id', 'sequence', 'count', 'text'];

function csvCells(item) {
  const rule = item.request ? whoOf(item.request) : item.rule === null ? '' : nameIn(textAt(item.at.record), item.rule);
  return [item.packet, secondOf(item.at.time), instantOf(item.at.time), item.at.record, item.kind, rule, item.sender ?? '',
    item.id ?? '', item.request?.sequence ?? '', item.request?.count ?? '', item.says ?? ''];
}

function csvText(items) {
  const quoted = cell => (/[",\r\n]/.test(cell) ? `"${String(cell).replaceAll('"', '""')}"` : String(cell));
  return [COLUMNS, ...items.map(csvCells)].map(cells => cells.map(quoted).join(',') + '\n').join('');
}

function saveCsv() {
  const link = make('a', '', '', { download: 'run.csv', href: URL.createObjectURL(new Blob([csvText(found)], { type: 'text/csv' })) });
  link.click();
  setTimeout(() => URL.revokeObjectURL(link.href), 1000);
}
