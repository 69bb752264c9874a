-- For man pages made of the pages of docs/: what a link says stays, and where it leads goes; a table becomes
-- a list, a row its item.
function Link(link) return link.content end
function Image() return {} end

local function words(cell) return pandoc.utils.blocks_to_inlines(cell) end

function Table(table)
  local items = {}
  for _, row in ipairs(pandoc.utils.to_simple_table(table).rows) do
    local rest = pandoc.List()
    for place = 2, #row do
      local said = words(row[place])
      if #rest > 0 and #said > 0 then rest:insert(pandoc.Str("; ")) end
      rest:extend(said)
    end
    items[#items + 1] = { words(row[1]), { { pandoc.Plain(rest) } } }
  end
  return pandoc.DefinitionList(items)
end
